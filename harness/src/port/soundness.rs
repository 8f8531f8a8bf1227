//! The check of a study: whether it keeps every rule, and holds 0 in every place that no record uses.
use super::ordering::distinct_inputs;
use super::study::*;

fn count_sound(count: u8, most: usize) -> bool {
    count != 0 && usize::from(count) <= most
}

fn component_sound(c: &Component) -> bool {
    if !(2..=4).contains(&c.states) {
        return false;
    }
    let lacked = &c.failed[usize::from(c.states) - 1..];
    let sum: u64 = c.failed.iter().map(|&p| u64::from(p)).sum();
    lacked.iter().all(|&p| p == 0) && sum <= ONE
}

fn tests_sound(gate: &Gate, counts: &[u8]) -> bool {
    let mut places = gate.component.iter().zip(&gate.mask).enumerate();
    places.all(|(j, (&component, &mask))| {
        if j >= usize::from(gate.tests) {
            return component == 0 && mask == 0;
        }
        let states = counts.get(usize::from(component));
        mask != 0 && states.is_some_and(|states| mask >> states == 0)
    })
}

fn inputs_sound(gate: &Gate, own: usize) -> bool {
    let mut places = gate.input.iter().enumerate();
    places.all(|(j, &input)| {
        if j >= usize::from(gate.gates) {
            return input == 0;
        }
        usize::from(input) < own
    })
}

/// Whether the inputs of a gate are in order, and its threshold is from 1 to the number of them, repeats not counted.
pub fn threshold_fits(gate: &Gate) -> bool {
    let most = distinct_inputs(gate);
    most.is_some_and(|most| (1..=most).contains(&usize::from(gate.threshold)))
}

fn gate_sound(gate: &Gate, own: usize, counts: &[u8]) -> bool {
    usize::from(gate.tests) <= TEST_PLACES
        && usize::from(gate.gates) <= INPUT_PLACES
        && tests_sound(gate, counts)
        && inputs_sound(gate, own)
        && threshold_fits(gate)
}

fn load_sound(load: &Load, gates: u8) -> bool {
    (load.gate == NEVER || load.gate < gates)
        && load.customers <= MOST_CUSTOMERS
        && load.minutes <= MOST_MINUTES
}

/// Whether the places behind the records of each kind hold 0.
fn unused_empty(study: &Study) -> bool {
    let component = &study.component[usize::from(study.components)..];
    let gate = &study.gate[usize::from(study.gates)..];
    let load = &study.load[usize::from(study.loads)..];
    component.iter().all(|c| *c == Component::default())
        && gate.iter().all(|g| *g == Gate::default())
        && load.iter().all(|l| *l == Load::default())
}

pub fn is_sound(study: &Study) -> bool {
    if !count_sound(study.components, COMPONENT_PLACES)
        || !count_sound(study.gates, GATE_PLACES)
        || !count_sound(study.loads, LOAD_PLACES)
        || !study.components().iter().all(component_sound)
    {
        return false;
    }
    let all = study.state_counts();
    let counts = &all[..usize::from(study.components)];
    let joint_states: usize = counts.iter().map(|&states| usize::from(states)).product();
    let mut gates = study.gates().iter().enumerate();
    joint_states <= MOST_JOINT_STATES
        && gates.all(|(own, gate)| gate_sound(gate, own, counts))
        && study.loads().iter().all(|l| load_sound(l, study.gates))
        && unused_empty(study)
}
