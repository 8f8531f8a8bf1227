//! Sound studies, from plain ones to the limits of the format.
use super::draft::{Draft, Role};
use super::random::Random;
use crate::reference::study::once;

/// Certainty, in units.
pub const ONE: u32 = 1_000_000_000;

/// How large a study may become.
pub struct Shape {
    pub components: usize,
    pub joint_states: usize,
    pub gates: usize,
}

/// Mostly small studies: the second implementation goes over joint states one by one, again for each call.
fn shape(random: &mut Random) -> Shape {
    let (components, joint_states) = match random.below(1000) {
        0..=3 => (12, 1024),
        4..=99 => (8, 256),
        100..=399 => (6, 96),
        _ => (4, 36),
    };
    let gates = random.pick(&[1, 2, 3, 4, 6, 9, 14]);
    Shape {
        components,
        joint_states,
        gates: if random.once_in(40) { 32 } else { gates },
    }
}

/// State counts, as many as the shape has room for; some studies stay below it.
pub fn state_counts(random: &mut Random, shape: &Shape) -> Vec<u8> {
    let wanted = random.between(1, shape.components);
    let only_two = random.once_in(2);
    let mut counts = Vec::new();
    let mut joint_states = 1;
    while counts.len() < wanted {
        let states = if only_two { 2 } else { random.between(2, 4) };
        joint_states *= states;
        if joint_states > shape.joint_states {
            break;
        }
        counts.push(states as u8);
    }
    if counts.is_empty() {
        counts.push(2);
    }
    counts
}

/// A probability of at most so much: often none, all that is left, or a number that leaves remainders.
fn probability(random: &mut Random, left: u32) -> u32 {
    let drawn = match random.below(8) {
        0 => 0,
        1 => left,
        2 => random.pick(&[1, 2, 999]),
        3 => 333_333_333,
        4 => random.below(ONE as usize / 10) as u32,
        _ => random.below(left as usize + 1) as u32,
    };
    drawn.min(left)
}

/// Whether a field is written: always if it must be, and now and then with its absent value.
fn given(random: &mut Random, value: u32, absent: u32) -> bool {
    value != absent || random.once_in(3)
}

fn component(random: &mut Random, draft: &mut Draft, states: u8) {
    let mut left = ONE;
    let mut map = u8::from(given(random, u32::from(states), 2));
    let mut probabilities = Vec::new();
    for state in 1..states {
        let p = probability(random, left);
        left -= p;
        if given(random, p, 0) {
            map |= 1 << state;
            probabilities.push(p);
        }
    }
    draft.byte(Role::ComponentMap { states }, map);
    if map & 1 == 1 {
        draft.byte(Role::StateCount, states);
    }
    for p in probabilities {
        draft.number(Role::Probability, p);
    }
}

/// A mask: mostly of failures alone, sometimes of any states, full ones included.
fn mask(random: &mut Random, states: u8) -> u8 {
    let full = (1u8 << states) - 1;
    let any = random.between(1, usize::from(full)) as u8;
    match random.below(4) {
        0 => any,
        1 => full - 1,
        _ => 1 << random.between(1, usize::from(states) - 1),
    }
}

/// How many inputs of a kind a gate takes, of `most` at most.
fn how_many(random: &mut Random, most: usize) -> usize {
    match random.below(20) {
        0 => most,
        1..=3 => random.between(0, most),
        _ => random.between(0, most.min(3)),
    }
}

/// Has some inputs stand again in place of others, side by side or apart.
fn repeat<T: Copy>(random: &mut Random, inputs: &mut [T]) {
    for j in 1..inputs.len() {
        if random.once_in(2) {
            inputs[j] = inputs[random.below(j)];
        }
    }
}

/// Leaves inputs as they were drawn, or has them ascend, or fall, or be repeated.
fn arrange<T: Copy + Ord>(random: &mut Random, inputs: &mut [T]) {
    match random.below(8) {
        0 => inputs.sort(),
        1 | 2 => inputs.sort_by(|one, other| other.cmp(one)),
        3..=5 => repeat(random, inputs),
        _ => {}
    }
}

/// Tests of any components, or of only a few of them.
fn tests(random: &mut Random, counts: &[u8], count: usize) -> Vec<(u8, u8)> {
    let tested = match random.below(3) {
        0 => counts.len().min(2),
        _ => counts.len(),
    };
    let mut drawn = Vec::new();
    for _ in 0..count {
        let component = random.below(tested);
        drawn.push((component as u8, mask(random, counts[component])));
    }
    arrange(random, &mut drawn);
    drawn
}

fn gate_inputs(random: &mut Random, own: u8, count: usize) -> Vec<u8> {
    let mut drawn: Vec<u8> = Vec::new();
    for _ in 0..count {
        drawn.push(random.below(usize::from(own)) as u8);
    }
    arrange(random, &mut drawn);
    drawn
}

/// A threshold: often one that any input meets, or that takes all that count.
fn threshold(random: &mut Random, distinct: usize) -> usize {
    match random.below(3) {
        0 => 1,
        1 => distinct,
        _ => random.between(1, distinct),
    }
}

fn gate(random: &mut Random, draft: &mut Draft, counts: &[u8], own: u8) {
    let input_count = match own {
        0 => 0,
        _ => how_many(random, 31),
    };
    let test_count = how_many(random, 12).max(usize::from(input_count == 0));
    let tests = tests(random, counts, test_count);
    let inputs = gate_inputs(random, own, input_count);
    let distinct = once(&tests).count() + once(&inputs).count();
    let threshold = threshold(random, distinct);
    let with_threshold = given(random, threshold as u32, 1);
    let (with_tests, with_inputs) = (test_count > 0, input_count > 0);
    let map = u8::from(with_threshold) | u8::from(with_tests) << 1 | u8::from(with_inputs) << 2;
    draft.byte(Role::GateMap, map);
    if with_threshold {
        let (standing, distinct) = ((test_count + input_count) as u8, distinct as u8);
        draft.byte(Role::Threshold { standing, distinct }, threshold as u8);
    }
    if with_tests {
        draft.tests(counts, &tests);
    }
    if with_inputs {
        draft.gate_inputs(own, &inputs);
    }
}

/// A number of customers or minutes.
fn size(random: &mut Random, most: usize) -> u32 {
    let drawn = match random.below(6) {
        0 => 0,
        1 => most,
        2 => random.between(0, 10),
        3 => random.between(0, most),
        _ => random.between(1, 500),
    };
    drawn as u32
}

/// A restore time: often one at which a loss is just short, or just too long for that.
fn minutes(random: &mut Random) -> u32 {
    match random.below(5) {
        0 => random.pick(&[5, 6]),
        _ => size(random, 20_000),
    }
}

fn load(random: &mut Random, draft: &mut Draft, gates: usize, customers: u32, minutes: u32) {
    // Higher gates have more below them.
    let gate = random.below(gates).max(random.below(gates));
    let with_gate = !random.once_in(8);
    let with_customers = given(random, customers, 0);
    let with_minutes = given(random, minutes, 0);
    let map = u8::from(with_gate) | u8::from(with_customers) << 1 | u8::from(with_minutes) << 2;
    draft.byte(Role::LoadMap, map);
    if with_gate {
        draft.byte(Role::LossGate, gate as u8);
    }
    if with_customers {
        draft.number(Role::Customers, customers);
    }
    if with_minutes {
        draft.number(Role::Minutes, minutes);
    }
}

/// A study whose components have these state counts.
pub fn with_states(random: &mut Random, shape: &Shape, counts: &[u8]) -> Draft {
    let gates = random.between(1, shape.gates);
    let loads = random.between(1, 8);
    let mut draft = Draft::default();
    draft.byte(Role::ComponentCount, counts.len() as u8);
    draft.byte(Role::GateCount, gates as u8);
    draft.byte(Role::LoadCount, loads as u8);
    for &states in counts {
        component(random, &mut draft, states);
    }
    for own in 0..gates {
        gate(random, &mut draft, counts, own as u8);
    }
    let people = random.below(40);
    for j in 0..loads {
        let (customers, minutes) = match people {
            0..=4 => (0, minutes(random)),
            5 | 6 => (100_000, 20_000),
            // One customer in all, so that the smallest loss counts.
            7 | 8 => (u32::from(j == 0), minutes(random)),
            _ => (size(random, 100_000), minutes(random)),
        };
        load(random, &mut draft, gates, customers, minutes);
    }
    draft
}

/// State counts that make 4,096 joint states, which is as many as there may be.
fn widest_counts(random: &mut Random) -> Vec<u8> {
    let mut counts = Vec::new();
    let mut left = 4096;
    while left > 1 {
        let states = if left == 2 { 2 } else { random.pick(&[2, 4]) };
        left /= usize::from(states);
        counts.push(states);
    }
    counts
}

/// A sound study; now and then one with as many joint states as there may be.
pub fn sound(random: &mut Random) -> Draft {
    let shape = shape(random);
    let counts = if random.once_in(800) {
        widest_counts(random)
    } else {
        state_counts(random, &shape)
    };
    with_states(random, &shape, &counts)
}
