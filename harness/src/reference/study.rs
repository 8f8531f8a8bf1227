//! A study as its fields, and the limits of the format.

/// Certainty, in units of a billionth.
pub const ONE: u128 = 1_000_000_000;

pub const MOST_COMPONENTS: usize = 12;
pub const MOST_GATES: usize = 32;
pub const MOST_LOADS: usize = 8;
pub const MOST_TESTS: usize = 12;
pub const MOST_GATE_INPUTS: usize = 31;
pub const MOST_JOINT_STATES: usize = 4096;
pub const MOST_CUSTOMERS: u32 = 100_000;
pub const MOST_MINUTES: u32 = 20_000;

#[derive(Clone, Debug, PartialEq)]
pub struct Component {
    pub states: u8,
    /// The probabilities of states 1, 2 and 3; 0 for those that the component lacks.
    pub failed: [u32; 3],
}

/// Tests rank by component, then by mask.
#[derive(Clone, Debug, PartialEq, Eq, PartialOrd, Ord)]
pub struct Test {
    pub component: u8,
    pub mask: u8,
}

#[derive(Clone, Debug, PartialEq)]
pub struct Gate {
    pub threshold: u8,
    pub tests: Vec<Test>,
    pub gates: Vec<u8>,
}

#[derive(Clone, Debug, PartialEq)]
pub struct Load {
    /// None: the load is never lost.
    pub gate: Option<u8>,
    pub customers: u32,
    pub minutes: u32,
}

#[derive(Clone, Debug, PartialEq)]
pub struct Study {
    pub components: Vec<Component>,
    pub gates: Vec<Gate>,
    pub loads: Vec<Load>,
}

impl Component {
    /// The probabilities of states 1 to 3 together, which may be above one before it is judged.
    pub fn failed_together(failed: [u32; 3]) -> u128 {
        failed.iter().map(|&p| u128::from(p)).sum()
    }

    /// The probability of a state, in units.
    pub fn probability(&self, state: u8) -> u128 {
        match state {
            0 => ONE - Component::failed_together(self.failed),
            _ => u128::from(self.failed[usize::from(state) - 1]),
        }
    }
}

/// The inputs of a kind, each where it stands first: a repeat, wherever it stands, is no input of its own.
pub fn once<T: PartialEq>(inputs: &[T]) -> impl Iterator<Item = &T> {
    let places = inputs.iter().enumerate();
    places.filter_map(|(j, input)| (!inputs[..j].contains(input)).then_some(input))
}

impl Gate {
    /// How many inputs stand in its record.
    pub fn standing_inputs(&self) -> usize {
        self.tests.len() + self.gates.len()
    }

    /// How many inputs it counts. Another mask of a component makes another test, and another number another gate, whatever is true of both.
    pub fn distinct_inputs(&self) -> usize {
        once(&self.tests).count() + once(&self.gates).count()
    }

    /// Whether its threshold is from 1 to the number of inputs that it counts.
    pub fn threshold_fits(&self) -> bool {
        (1..=self.distinct_inputs()).contains(&usize::from(self.threshold))
    }

    /// Whether its tests ascend, and its gate inputs; an input that is there twice stands beside itself.
    pub fn is_in_order(&self) -> bool {
        self.tests.is_sorted() && self.gates.is_sorted()
    }
}

/// Whether a mask asks for a state at all, and for none that is not there.
pub fn mask_fits(mask: u8, states: u8) -> bool {
    mask != 0 && (states..8).all(|state| mask & (1 << state) == 0)
}

/// How many joint states components have together.
pub fn joint_state_count(components: &[Component]) -> usize {
    components.iter().map(|c| usize::from(c.states)).product()
}
