//! Images of studies, altered behind the library's back. Some stay sound.
use super::random::Random;
use crate::reference::image::held;

/// Where records of each kind start, how long one is, and how many places there are.
const KINDS: [(usize, usize, usize); 3] = [(3, 13, 12), (159, 58, 32), (2015, 9, 8)];
const COMPONENT: usize = 0;
const GATE: usize = 1;
const LOAD: usize = 2;

fn record(kind: usize, number: usize) -> usize {
    let (from, size, _) = KINDS[kind];
    from + number * size
}

/// Where a record in use starts, or the first place of its kind in an image without any.
fn used(random: &mut Random, image: &[u8], kind: usize) -> usize {
    let places = KINDS[kind].2;
    let count = usize::from(image[kind]).clamp(1, places);
    record(kind, random.below(count))
}

fn put_number(image: &mut [u8], at: usize, number: u32) {
    image[at..at + 4].copy_from_slice(&number.to_le_bytes());
}

fn number_at(image: &[u8], at: usize) -> u32 {
    let four = image[at..at + 4].try_into().expect("four bytes");
    u32::from_le_bytes(four)
}

/// A byte that is near another, or far from it.
fn near(random: &mut Random, old: u8) -> u8 {
    match random.below(5) {
        0 => old.wrapping_add(1),
        1 => old.wrapping_sub(1),
        2 => old ^ (1 << random.below(8)),
        3 => 0,
        _ => random.byte(),
    }
}

/// A byte of the first record that is not in use, if there is one, or else of any.
fn disturb_unused(random: &mut Random, image: &mut [u8]) {
    let kind = random.below(3);
    let (_, size, places) = KINDS[kind];
    let count = usize::from(image[kind]);
    let at = if count < places {
        record(kind, count) + random.below(size)
    } else {
        random.below(image.len())
    };
    image[at] = near(random, image[at]);
}

/// A state count out of range as the only breach: no probability and no mask speaks of a lacking state.
fn odd_state_count(random: &mut Random, image: &mut [u8]) {
    let number = random.below(usize::from(image[COMPONENT]).clamp(1, 12));
    let at = record(COMPONENT, number);
    image[at + 1..at + 13].fill(0);
    image[at] = random.pick(&[0, 1, 1, 5, 8, 255]);
    for gate in 0..32 {
        let tests = record(GATE, gate) + 2;
        for j in 0..12 {
            let (component, mask) = (tests + j, tests + 12 + j);
            if image[mask] != 0 && usize::from(image[component]) == number {
                image[mask] = 1;
            }
        }
    }
}

/// More components, until there are too many joint states.
fn widen(random: &mut Random, image: &mut [u8]) {
    let mut joint_states: usize = 1;
    for i in 0..12 {
        let at = record(COMPONENT, i);
        if i >= usize::from(image[COMPONENT]) {
            image[at] = random.between(2, 4) as u8;
            image[COMPONENT] += 1;
        }
        joint_states = joint_states.saturating_mul(usize::from(image[at]));
        if joint_states > 4096 {
            break;
        }
    }
}

/// A number at its limit, or one beyond.
fn at_limit(random: &mut Random, image: &mut [u8]) {
    match random.below(5) {
        0 => {
            let at = used(random, image, COMPONENT);
            let others = u64::from(number_at(image, at + 5)) + u64::from(number_at(image, at + 9));
            let rest = 1_000_000_000u64.saturating_sub(others) as u32;
            put_number(image, at + 1, rest + random.below(2) as u32);
        }
        1 => {
            let at = used(random, image, GATE);
            let inputs = image[at + 1].saturating_add(image[at + 26]);
            image[at] = random.pick(&[0, inputs, inputs.saturating_add(1)]);
        }
        2 => {
            let gates = image[GATE];
            let at = used(random, image, LOAD);
            image[at] = random.pick(&[gates.saturating_sub(1), gates, 32, 254, 255]);
        }
        3 => {
            let at = used(random, image, LOAD);
            put_number(image, at + 1, 100_000 + random.below(2) as u32);
        }
        _ => {
            let at = used(random, image, LOAD);
            put_number(image, at + 5, 20_000 + random.below(2) as u32);
        }
    }
}

/// Raises the threshold of a gate that repeats an input above the inputs that it counts, but not above those that stand.
fn overvote(random: &mut Random, image: &mut [u8]) {
    let study = held(image).expect("a sound image");
    let gates = study.gates.iter().enumerate();
    let overvotes = gates.filter_map(|(own, gate)| {
        let (distinct, standing) = (gate.distinct_inputs(), gate.standing_inputs());
        (distinct < standing).then_some((own, distinct + 1, standing))
    });
    let overvotes: Vec<_> = overvotes.collect();
    if !overvotes.is_empty() {
        let (own, lowest, highest) = random.pick(&overvotes);
        image[record(GATE, own)] = random.between(lowest, highest) as u8;
    }
}

/// Has an input of a gate stand again in place of the one behind it: the order is kept, and the threshold may be too high for what is left.
fn repeat(random: &mut Random, image: &mut [u8]) {
    let at = used(random, image, GATE);
    let (count, first) = random.pick(&[(1, 2), (26, 27)]);
    let standing = usize::from(image[at + count]);
    if standing < 2 {
        return;
    }
    let behind = at + first + random.between(1, standing - 1);
    image[behind] = image[behind - 1];
    let are_tests = count == 1;
    if are_tests {
        image[behind + 12] = image[behind + 11];
    }
}

/// Whether the inputs of a gate at two places can be told apart.
type Differ = fn(&[u8], usize, usize) -> bool;

/// Exchanges two inputs of a gate, so that nothing but their order is wrong: tests of two components, tests of one component, or gate inputs.
fn disorder(random: &mut Random, image: &mut [u8]) {
    // Where in a gate the number of such inputs stands, and where the first of them; a test's mask stands 12 places behind its component.
    let (count, first, differ): (usize, usize, Differ) = match random.below(3) {
        0 => (1, 2, |image, j, k| image[j] != image[k]),
        1 => (1, 2, |image, j, k| {
            image[j] == image[k] && image[j + 12] != image[k + 12]
        }),
        _ => (26, 27, |image, j, k| image[j] != image[k]),
    };
    let mut pairs = Vec::new();
    for gate in 0..usize::from(image[GATE]) {
        let at = record(GATE, gate);
        let places = at + first..at + first + usize::from(image[at + count]);
        for k in places.clone() {
            let before = (places.start..k).filter(|&j| differ(image, j, k));
            pairs.extend(before.map(|j| (j, k)));
        }
    }
    if pairs.is_empty() {
        return;
    }
    let (j, k) = random.pick(&pairs);
    image.swap(j, k);
    let are_tests = count == 1;
    if are_tests {
        image.swap(j + 12, k + 12);
    }
}

/// A sound image with one or more bytes altered.
pub fn altered(random: &mut Random, image: &[u8]) -> Vec<u8> {
    let mut other = image.to_vec();
    match random.below(20) {
        0 => {
            let at = random.below(3);
            other[at] = near(random, other[at]);
        }
        1 => disturb_unused(random, &mut other),
        2 => {
            let at = random.below(other.len());
            other[at] = near(random, other[at]);
        }
        3 => odd_state_count(random, &mut other),
        4 => widen(random, &mut other),
        5 | 6 => at_limit(random, &mut other),
        7..=10 => disorder(random, &mut other),
        11 | 12 => overvote(random, &mut other),
        13 | 14 => repeat(random, &mut other),
        _ => {
            let kind = random.below(3);
            let at = used(random, &other, kind) + random.below(KINDS[kind].1);
            other[at] = near(random, other[at]);
        }
    }
    other
}
