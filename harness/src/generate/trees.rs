//! Drawn trees beside a study: from its gates, with the components asked in any order, and others that mean what no gate says.
use super::random::Random;
use crate::reference::losses::{Losses, Meaning};
use crate::reference::study::Study;

/// The byte in front of a leaf's class.
pub const BEFORE_CLASS: u8 = 255;

/// When a branch ends in a leaf.
#[derive(Clone, Copy)]
pub enum Style {
    /// As soon as the gates have one class for all joint states that come there.
    Reduced,
    /// Then, or some needless questions later.
    Needless,
    /// Once every component is asked.
    Deepest,
    /// Anywhere, with any class.
    Wild,
}

/// Trees from the gates of a study.
const BY_GATES: [Style; 3] = [Style::Reduced, Style::Needless, Style::Deepest];

/// A place of a tree that is still to be drawn: which components are not asked above it, and the numbers of the joint states that come there.
struct Branch {
    unasked: Vec<u8>,
    reached: Vec<usize>,
}

/// A study whose tree is being drawn.
struct Drawing<'a> {
    random: &'a mut Random,
    losses: Losses,
    loads: usize,
    style: Style,
    bytes: Vec<u8>,
}

/// A class of a study with so many loads; often that of no loss.
fn any_class(random: &mut Random, loads: usize) -> u8 {
    match random.below(3) {
        0 => 0,
        _ => random.below(1 << loads) as u8,
    }
}

impl Drawing<'_> {
    /// The class that all joint states of a branch have by the gates, if they have one.
    fn one_class(&self, branch: &Branch) -> Option<u8> {
        let mut classes = branch.reached.iter().map(|&x| self.losses.classes[x]);
        let first = classes.next()?;
        classes.all(|class| class == first).then_some(first)
    }

    /// The class of the leaf in which a branch ends, unless it goes on.
    fn end(&mut self, branch: &Branch) -> Option<u8> {
        let all_asked = branch.unasked.is_empty();
        let ends = match self.style {
            Style::Reduced => true,
            Style::Needless => all_asked || self.random.once_in(2),
            Style::Deepest => all_asked,
            Style::Wild if all_asked || self.random.once_in(4) => {
                return Some(any_class(self.random, self.loads));
            }
            Style::Wild => false,
        };
        self.one_class(branch).filter(|_| ends)
    }

    /// The part of a branch for a state of a component that is asked there.
    fn part(&self, branch: &Branch, component: u8, state: u8) -> Branch {
        let state_in = |x: usize| self.losses.joint_states[x][usize::from(component)];
        let others = branch.unasked.iter().filter(|&&other| other != component);
        let reached = branch.reached.iter().filter(|&&x| state_in(x) == state);
        Branch {
            unasked: others.copied().collect(),
            reached: reached.copied().collect(),
        }
    }

    fn draw(&mut self, branch: &Branch) {
        if let Some(class) = self.end(branch) {
            self.bytes.extend([BEFORE_CLASS, class]);
            return;
        }
        let component = self.random.pick(&branch.unasked);
        self.bytes.push(component);
        for state in 0..self.losses.counts[usize::from(component)] {
            let part = self.part(branch, component, state);
            self.draw(&part);
        }
    }
}

/// A tree beside a study, drawn in a style.
pub fn drawn(random: &mut Random, study: &Study, style: Style) -> Vec<u8> {
    let losses = Losses::of(study, &Meaning::Gates);
    let whole = Branch {
        unasked: (0..losses.counts.len() as u8).collect(),
        reached: (0..losses.joint_states.len()).collect(),
    };
    let mut drawing = Drawing {
        random,
        losses,
        loads: study.loads.len(),
        style,
        bytes: Vec::new(),
    };
    drawing.draw(&whole);
    drawing.bytes
}

/// A tree that keeps every rule beside a study: from its gates, or with classes of its own, now and then a leaf alone.
pub fn tree(random: &mut Random, study: &Study) -> Vec<u8> {
    match random.below(8) {
        0 => vec![BEFORE_CLASS, any_class(random, study.loads.len())],
        1..=3 => {
            let style = random.pick(&BY_GATES);
            drawn(random, study, style)
        }
        _ => drawn(random, study, Style::Wild),
    }
}
