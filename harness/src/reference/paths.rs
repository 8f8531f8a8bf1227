//! The list of paths, by what holds of it: each joint state says on which path it lies.
use super::losses::Losses;
use std::collections::{HashMap, HashSet};

/// The byte of a list entry for a blank component.
const BLANK: u8 = 255;

/// A path of the reduced event tree.
#[derive(Clone, PartialEq, Eq, Hash)]
pub struct Path {
    /// For each component its state, or None where it is blank.
    pub marks: Vec<Option<u8>>,
    pub class: u8,
}

impl Path {
    /// Its entry in a list: a byte for each component, then the class.
    pub fn entry(&self) -> Vec<u8> {
        let marks = self.marks.iter().map(|mark| mark.unwrap_or(BLANK));
        marks.chain([self.class]).collect()
    }

    /// The path of such an entry.
    pub fn of_entry(entry: &[u8]) -> Path {
        let (&class, marks) = entry.split_last().expect("a class stands last");
        let marks = marks.iter().map(|&mark| (mark != BLANK).then_some(mark));
        Path {
            marks: marks.collect(),
            class,
        }
    }

    /// Whether a joint state lies on it.
    pub fn holds(&self, joint: &[u8]) -> bool {
        fits(&self.marks, joint)
    }
}

/// Whether a joint state has the settled states.
fn fits(marks: &[Option<u8>], joint: &[u8]) -> bool {
    marks
        .iter()
        .zip(joint)
        .all(|(mark, state)| mark.is_none_or(|settled| settled == *state))
}

/// Whether the state of the component behind those marked changes no loss, with all others in any state.
fn changes_no_loss(losses: &Losses, marks: &[Option<u8>]) -> bool {
    let component = marks.len();
    let states = losses.counts[component];
    let all = losses.joint_states.iter().zip(&losses.classes);
    all.filter(|(joint, _)| fits(marks, joint))
        .all(|(joint, &class)| {
            (0..states).all(|other| losses.class_with(joint, component, other) == class)
        })
}

/// All paths, in the order of the first joint state on each.
pub fn paths(losses: &Losses) -> Vec<Path> {
    // Whether the component behind these marks is blank: kept, since many joint states share their front.
    let mut blank_behind: HashMap<Vec<Option<u8>>, bool> = HashMap::new();
    let mut seen: HashSet<Path> = HashSet::new();
    let mut list = Vec::new();
    for (joint, &class) in losses.joint_states.iter().zip(&losses.classes) {
        let mut marks = Vec::new();
        for &state in joint {
            let blank = *blank_behind
                .entry(marks.clone())
                .or_insert_with(|| changes_no_loss(losses, &marks));
            marks.push((!blank).then_some(state));
        }
        let path = Path { marks, class };
        if seen.insert(path.clone()) {
            list.push(path);
        }
    }
    list
}
