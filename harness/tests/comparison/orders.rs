//! How the inputs of gates stood in the studies that were compared.
use harness::reference::study::{Gate, Study};
use std::fmt;

/// Studies with a gate out of order: by the components of tests, by their masks alone, by gate inputs.
#[derive(Default)]
pub struct Disorder {
    components: usize,
    masks: usize,
    gate_inputs: usize,
}

fn components_ascend(gate: &Gate) -> bool {
    gate.tests.is_sorted_by_key(|test| test.component)
}

impl Disorder {
    pub fn count(&mut self, study: &Study) {
        let some = |wanted: fn(&Gate) -> bool| usize::from(study.gates.iter().any(wanted));
        self.components += some(|gate| !components_ascend(gate));
        self.masks += some(|gate| components_ascend(gate) && !gate.tests.is_sorted());
        self.gate_inputs += some(|gate| !gate.gates.is_sorted());
    }

    /// How often the rarest of the three was met.
    pub fn least(&self) -> usize {
        self.components.min(self.masks).min(self.gate_inputs)
    }
}

impl fmt::Display for Disorder {
    fn fmt(&self, line: &mut fmt::Formatter) -> fmt::Result {
        let Disorder {
            components,
            masks,
            gate_inputs,
        } = self;
        write!(
            line,
            "component: {components}, by mask alone: {masks}, by gate input: {gate_inputs}"
        )
    }
}

/// Three or more, each below the one before.
fn fall<T: Ord>(inputs: &[T]) -> bool {
    inputs.len() >= 3 && inputs.is_sorted_by(|one, next| one > next)
}

/// Whether the inputs of some gate fall.
pub fn has_falling(study: &Study) -> bool {
    let mut gates = study.gates.iter();
    gates.any(|gate| fall(&gate.tests) || fall(&gate.gates))
}
