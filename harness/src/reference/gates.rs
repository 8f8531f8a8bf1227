//! The truth of gates in a joint state, and the class that it comes to.
use super::study::{once, Study, Test};

fn test_is_true(test: &Test, joint: &[u8]) -> bool {
    let state = joint[usize::from(test.component)];
    test.mask & (1 << state) != 0
}

/// Whether a gate is true in a joint state. A gate found before is not asked again: lower gates have many above them.
fn is_true(study: &Study, gate: u8, joint: &[u8], found: &mut [Option<bool>]) -> bool {
    if let Some(truth) = found[usize::from(gate)] {
        return truth;
    }
    let this = &study.gates[usize::from(gate)];
    let true_tests = once(&this.tests).filter(|test| test_is_true(test, joint));
    let tests = true_tests.count();
    let true_gates = once(&this.gates).filter(|&&input| is_true(study, input, joint, found));
    let gates = true_gates.count();
    let truth = tests + gates >= usize::from(this.threshold);
    found[usize::from(gate)] = Some(truth);
    truth
}

/// The class of a joint state: the bit of each load whose gate is true stands.
pub fn class(study: &Study, joint: &[u8]) -> u8 {
    let mut found = vec![None; study.gates.len()];
    let mut class = 0;
    for (j, load) in study.loads.iter().enumerate() {
        let lost = load
            .gate
            .is_some_and(|gate| is_true(study, gate, joint, &mut found));
        if lost {
            class |= 1 << j;
        }
    }
    class
}
