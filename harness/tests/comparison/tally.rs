//! What was compared, counted.
use crate::answers::{Answers, Calls};
use crate::calls::Call;
use crate::orders::{has_falling, Disorder};
use crate::repeats::{is_overvoted, is_overvoted_alone, Repeats};
use crate::reports::Reports;
use harness::library::Figures;
use harness::reference::image;
use harness::reference::refusals::THRESHOLD;
use harness::reference::study::Study;
use std::fmt;

#[derive(Default)]
pub struct Tally {
    pub inputs: usize,
    pub sound: usize,
    /// All calls that were made twice, and chances of surviving, of which each given was judged by what is promised.
    pub calls: Calls,
    /// Figures without CAIDI.
    pub unstated: usize,
    /// Figures with losses of short loads beside those of others.
    pub mixed: usize,
    /// Sound studies whose bytes give inputs out of order, in falling order, and more than once.
    pub given: Disorder,
    pub falling: usize,
    pub repeated: Repeats,
    /// Bytes that are refused by 12 for no more than repeats, and images that are refused by 16 for no more.
    pub overvoted: usize,
    pub overvoted_images: usize,
    /// Images that break no rule but that of order.
    pub disordered: Disorder,
    /// Bounds of classes in slices full of the largest number.
    pub in_full: Answers,
    /// Reports, by what was lent for them.
    pub reports: Reports,
    /// Trees drawn from gates, of which the library said what it said of the gates.
    pub drawn_gates: usize,
}

impl Tally {
    /// Takes note of a study as its bytes give it, up to the first breach.
    pub fn count_given(&mut self, study: &Study, judged: Result<(), u8>) {
        match judged {
            Ok(()) => self.count_sound(study),
            Err(THRESHOLD) => {
                let refused = study.gates.last();
                self.overvoted += usize::from(refused.is_some_and(is_overvoted));
            }
            Err(_) => {}
        }
    }

    fn count_sound(&mut self, study: &Study) {
        self.sound += 1;
        self.given.count(study);
        self.falling += usize::from(has_falling(study));
        self.repeated.count(study);
    }

    /// Takes note of an image that is to be written.
    pub fn count_image(&mut self, image: &[u8]) {
        if let Some(study) = image::read_in_any_order(image) {
            self.disordered.count(&study);
        }
        let overvoted = image::held(image).is_some_and(|study| is_overvoted_alone(&study));
        self.overvoted_images += usize::from(overvoted);
    }

    /// Takes note of what kind of figures were answered, as many as are stated.
    pub fn count_figures(&mut self, stated: usize, figures: &Figures) {
        self.unstated += usize::from(stated == 3);
        self.mixed += usize::from(figures.saifi.upper > 0 && figures.maifi.upper > 0);
    }
}

impl fmt::Display for Tally {
    fn fmt(&self, line: &mut fmt::Formatter) -> fmt::Result {
        writeln!(
            line,
            "{} inputs ({} sound), {} calls alike; figures without CAIDI: {}, of short and other loads: {}",
            self.inputs,
            self.sound,
            self.calls.all(),
            self.unstated,
            self.mixed
        )?;
        writeln!(
            line,
            "sound studies with inputs out of order by {}; in falling order: {}",
            self.given, self.falling
        )?;
        writeln!(
            line,
            "sound studies with repeats of a {}; refused for repeats alone, by 12: {}, as images by 16: {}",
            self.repeated, self.overvoted, self.overvoted_images
        )?;
        writeln!(
            line,
            "{} times written and opened again; images out of order alone, by {}",
            self.calls.of(Call::Write).given,
            self.disordered
        )?;
        writeln!(
            line,
            "slices full of the largest number: {} times with the bounds of classes that cleared ones have, left full by 16: {}, by 18: {}",
            self.in_full.given,
            self.in_full.refused_by(16),
            self.in_full.refused_by(18)
        )?;
        writeln!(line, "reports refused {}", self.reports)?;
        writeln!(
            line,
            "{} times a chance of surviving that keeps what is promised",
            self.calls.of(Call::Survival).given
        )?;
        writeln!(
            line,
            "{} trees drawn from gates, in any order, that say what the gates say",
            self.drawn_gates
        )?;
        write!(line, "{}", self.calls)
    }
}
