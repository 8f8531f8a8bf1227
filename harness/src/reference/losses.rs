//! What a study loses, by its gates or by a tree drawn in their place: all joint states in order, and the class of each.
use super::drawn::{self, Tree};
use super::gates;
use super::study::{joint_state_count, Study};

/// What says which loads are lost in a joint state.
pub enum Meaning {
    /// The gates of the study, by the loss gate of each load.
    Gates,
    /// A tree in place of all gates, by the class of its leaf.
    Drawn(Tree),
}

impl Meaning {
    /// The meaning of a study beside the bytes of a tree, or beside none. Refused by 20 to 22.
    pub fn of(study: &Study, tree: Option<&[u8]>) -> Result<Meaning, u8> {
        match tree {
            None => Ok(Meaning::Gates),
            Some(bytes) => Ok(Meaning::Drawn(drawn::read(study, bytes)?)),
        }
    }

    /// The class of a joint state.
    fn class(&self, study: &Study, joint: &[u8]) -> u8 {
        match self {
            Meaning::Gates => gates::class(study, joint),
            Meaning::Drawn(tree) => tree.class(joint),
        }
    }
}

/// The joint states of a study with their classes.
pub struct Losses {
    /// The state count of each component.
    pub counts: Vec<u8>,
    /// Each joint state, by its number: a state for each component.
    pub joint_states: Vec<Vec<u8>>,
    /// The class of each joint state, by its number.
    pub classes: Vec<u8>,
}

/// The joint state with this number: component 0 varies slowest, and up comes first.
fn joint_state(counts: &[u8], number: usize) -> Vec<u8> {
    let mut left = number;
    let mut states = vec![0; counts.len()];
    for i in (0..counts.len()).rev() {
        states[i] = (left % usize::from(counts[i])) as u8;
        left /= usize::from(counts[i]);
    }
    states
}

impl Losses {
    pub fn of(study: &Study, meaning: &Meaning) -> Losses {
        let counts: Vec<u8> = study.components.iter().map(|c| c.states).collect();
        let all = 0..joint_state_count(&study.components);
        let joint_states: Vec<Vec<u8>> = all.map(|number| joint_state(&counts, number)).collect();
        let classes = joint_states
            .iter()
            .map(|joint| meaning.class(study, joint))
            .collect();
        Losses {
            counts,
            joint_states,
            classes,
        }
    }

    /// The class of the joint state that differs from this one in one component alone.
    pub fn class_with(&self, joint: &[u8], component: usize, state: u8) -> u8 {
        let mut number = 0;
        for (i, &count) in self.counts.iter().enumerate() {
            let digit = if i == component { state } else { joint[i] };
            number = number * usize::from(count) + usize::from(digit);
        }
        self.classes[number]
    }
}
