//! The class table: the class of each joint state, by its number.
use super::ordering::without_repeats;
use super::study::*;

fn test_true(mask: u8, state: u8) -> bool {
    mask >> state & 1 == 1
}

/// Whether a gate that has no repeats is true.
fn gate_true(gate: &Gate, joint: &[u8], truths: &[bool; GATE_PLACES]) -> bool {
    let tests = usize::from(gate.tests);
    let true_tests = gate.component[..tests]
        .iter()
        .zip(&gate.mask[..tests])
        .filter(|&(&component, &mask)| test_true(mask, joint[usize::from(component)]))
        .count();
    let true_gates = gate.input[..usize::from(gate.gates)]
        .iter()
        .filter(|&&input| truths[usize::from(input)])
        .count();
    true_tests + true_gates >= usize::from(gate.threshold)
}

/// The truths of the gates, in order: a gate has only lower ones as inputs.
fn gate_truths(gates: &[Gate], joint: &[u8]) -> [bool; GATE_PLACES] {
    let mut truths = [false; GATE_PLACES];
    for (i, gate) in gates.iter().enumerate() {
        truths[i] = gate_true(gate, joint, &truths);
    }
    truths
}

fn class_by(truths: &[bool; GATE_PLACES], loads: &[Load]) -> u8 {
    let mut class = 0;
    for (j, load) in loads.iter().enumerate() {
        let lost = load.gate != NEVER && truths[usize::from(load.gate)];
        class |= u8::from(lost) << j;
    }
    class
}

/// Moves a joint state on to the next; behind the last comes the first again.
fn next_joint_state(counts: &[u8], joint: &mut [u8]) {
    for (state, &count) in joint.iter_mut().zip(counts).rev() {
        if *state + 1 < count {
            *state += 1;
            return;
        }
        *state = 0;
    }
}

/// Gates without their repeats, each in its place.
fn each_without_repeats(gates: &[Gate]) -> [Gate; GATE_PLACES] {
    let mut each = [Gate::default(); GATE_PLACES];
    for (place, gate) in each.iter_mut().zip(gates) {
        *place = without_repeats(gate);
    }
    each
}

/// Fills a block that has a place for each joint state. What each gate counts is found once, for all of them.
pub fn fill_classes(study: &Study, counts: &[u8], block: &mut [u8]) {
    let each = each_without_repeats(study.gates());
    let gates = &each[..study.gates().len()];
    let mut places = [0; COMPONENT_PLACES];
    let joint = &mut places[..counts.len()];
    for class in block {
        *class = class_by(&gate_truths(gates, joint), study.loads());
        next_joint_state(counts, joint);
    }
}
