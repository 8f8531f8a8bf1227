//! How the inputs of gates were repeated in the studies that were compared.
use harness::reference::study::{once, Gate, Study};
use std::fmt;

/// Sound studies with a gate that repeats an input.
#[derive(Default)]
pub struct Repeats {
    tests: usize,
    gate_inputs: usize,
    /// Not side by side in the bytes.
    apart: usize,
    /// A test beside one of the same component with another mask.
    beside_other_mask: usize,
    /// Under a threshold that takes all distinct inputs, two or more.
    under_all: usize,
}

fn repeats<T: PartialEq>(inputs: &[T]) -> bool {
    once(inputs).count() < inputs.len()
}

fn repeats_apart<T: Clone + PartialEq>(inputs: &[T]) -> bool {
    let mut parted = inputs.to_vec();
    parted.dedup();
    repeats(&parted)
}

fn repeats_beside_other_mask(gate: &Gate) -> bool {
    let components: Vec<u8> = once(&gate.tests).map(|test| test.component).collect();
    repeats(&gate.tests) && repeats(&components)
}

fn repeats_under_all(gate: &Gate) -> bool {
    let distinct = gate.distinct_inputs();
    distinct < gate.standing_inputs() && distinct > 1 && usize::from(gate.threshold) == distinct
}

impl Repeats {
    pub fn count(&mut self, study: &Study) {
        let some = |wanted: fn(&Gate) -> bool| usize::from(study.gates.iter().any(wanted));
        self.tests += some(|gate| repeats(&gate.tests));
        self.gate_inputs += some(|gate| repeats(&gate.gates));
        self.apart += some(|gate| repeats_apart(&gate.tests) || repeats_apart(&gate.gates));
        self.beside_other_mask += some(repeats_beside_other_mask);
        self.under_all += some(repeats_under_all);
    }

    /// How often the rarest of these was met.
    pub fn least(&self) -> usize {
        let Repeats {
            tests,
            gate_inputs,
            apart,
            beside_other_mask,
            under_all,
        } = *self;
        let all = [tests, gate_inputs, apart, beside_other_mask, under_all];
        all.into_iter().fold(usize::MAX, usize::min)
    }
}

impl fmt::Display for Repeats {
    fn fmt(&self, line: &mut fmt::Formatter) -> fmt::Result {
        write!(
            line,
            "test: {}, of a gate input: {}, apart: {}, beside another mask: {}, where all distinct inputs are needed: {}",
            self.tests, self.gate_inputs, self.apart, self.beside_other_mask, self.under_all
        )
    }
}

/// Whether the threshold of a gate is met by the inputs that stand in it, but not by those that count.
pub fn is_overvoted(gate: &Gate) -> bool {
    let fewest = gate.distinct_inputs() + 1;
    (fewest..=gate.standing_inputs()).contains(&usize::from(gate.threshold))
}

/// Whether some gates of a study are overvoted, and in order as all others are, whose thresholds fit.
pub fn is_overvoted_alone(study: &Study) -> bool {
    let kept = |gate: &Gate| gate.is_in_order() && (gate.threshold_fits() || is_overvoted(gate));
    study.gates.iter().all(kept) && study.gates.iter().any(is_overvoted)
}
