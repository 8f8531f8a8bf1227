//! How reports were answered, by what they were lent beside what they needed.
use std::fmt;

/// What a report needs: the bytes of its text, and places in each slice, none where the study does not open.
pub struct Need {
    pub text: usize,
    pub places: usize,
}

/// What it is lent: a text, and slices for lower and upper bounds, which may be full of the largest number.
#[derive(Debug)]
pub struct Offer {
    pub text: usize,
    pub slices: [usize; 2],
    pub full: bool,
}

#[derive(Default)]
pub struct Reports {
    /// Refused for the text alone, for the lower slice alone, for the upper one alone.
    short_text: usize,
    short_lower: usize,
    short_upper: usize,
    /// Given beside empty slices, since the study does not open.
    unopened: usize,
    /// Full slices of a study that opens: with its bounds afterwards, and left full.
    overwritten: usize,
    left_full: usize,
}

impl Reports {
    pub fn count(&mut self, need: &Need, offer: &Offer, answer: Result<usize, u8>) {
        let [lower, upper] = offer.slices.map(|room| room < need.places);
        let short = [offer.text < need.text, lower, upper];
        let refused_for = |lacking| usize::from(answer.is_err() && short == lacking);
        self.short_text += refused_for([true, false, false]);
        self.short_lower += refused_for([false, true, false]);
        self.short_upper += refused_for([false, false, true]);
        let opens = need.places > 0;
        self.unopened += usize::from(!opens && offer.slices == [0, 0] && answer.is_ok());
        self.overwritten += usize::from(opens && offer.full && answer.is_ok());
        self.left_full += usize::from(opens && offer.full && answer.is_err());
    }

    /// How often the rarest of these was met.
    pub fn least(&self) -> usize {
        let Reports {
            short_text,
            short_lower,
            short_upper,
            unopened,
            overwritten,
            left_full,
        } = *self;
        let refused = short_text.min(short_lower).min(short_upper);
        refused.min(unopened).min(overwritten).min(left_full)
    }
}

impl fmt::Display for Reports {
    fn fmt(&self, line: &mut fmt::Formatter) -> fmt::Result {
        write!(
            line,
            "for the text alone: {}, the lower slice alone: {}, the upper one alone: {}; given of what does not open, beside empty slices: {}; \
             full slices of what opens with its bounds: {}, left full: {}",
            self.short_text,
            self.short_lower,
            self.short_upper,
            self.unopened,
            self.overwritten,
            self.left_full
        )
    }
}
