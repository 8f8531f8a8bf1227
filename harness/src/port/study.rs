//! A study with fixed places for its records.

pub const COMPONENT_PLACES: usize = 12;
pub const GATE_PLACES: usize = 32;
pub const LOAD_PLACES: usize = 8;
pub const STATE_PLACES: usize = 4;
pub const TEST_PLACES: usize = 12;
pub const INPUT_PLACES: usize = 31;
pub const MOST_JOINT_STATES: usize = 4096;
pub const MOST_CUSTOMERS: u32 = 100_000;
pub const MOST_MINUTES: u32 = 20_000;

/// The longest restore time of a momentary loss, in minutes.
pub const LONGEST_MOMENTARY: u32 = 5;

/// Certainty, in units.
pub const ONE: u64 = 1_000_000_000;

/// The state count of a component that gives none.
pub const TWO_STATES: u8 = 2;

/// The threshold of a gate that gives none: one input is enough.
pub const OR: u8 = 1;

/// The loss gate of a load that is never lost.
pub const NEVER: u8 = 255;

#[derive(Clone, Copy, Default, PartialEq)]
pub struct Component {
    pub states: u8,
    /// The probabilities of states 1 to 3.
    pub failed: [u32; 3],
}

#[derive(Clone, Copy, Default, PartialEq)]
pub struct Gate {
    pub threshold: u8,
    pub tests: u8,
    pub component: [u8; TEST_PLACES],
    pub mask: [u8; TEST_PLACES],
    pub gates: u8,
    pub input: [u8; INPUT_PLACES],
}

#[derive(Clone, Copy, Default, PartialEq)]
pub struct Load {
    pub gate: u8,
    pub customers: u32,
    pub minutes: u32,
}

#[derive(Default)]
pub struct Study {
    pub components: u8,
    pub gates: u8,
    pub loads: u8,
    pub component: [Component; COMPONENT_PLACES],
    pub gate: [Gate; GATE_PLACES],
    pub load: [Load; LOAD_PLACES],
}

impl Study {
    pub fn components(&self) -> &[Component] {
        &self.component[..usize::from(self.components)]
    }

    pub fn gates(&self) -> &[Gate] {
        &self.gate[..usize::from(self.gates)]
    }

    pub fn loads(&self) -> &[Load] {
        &self.load[..usize::from(self.loads)]
    }

    /// The state counts of all component places; those of the study's components stand first.
    pub fn state_counts(&self) -> [u8; COMPONENT_PLACES] {
        self.component.map(|c| c.states)
    }
}
