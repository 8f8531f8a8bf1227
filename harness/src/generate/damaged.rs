//! Damaged studies: each kind of breach aimed at, some followed by a second one, by a cut, or by noise alone.
use super::draft::{Draft, Role};
use super::random::Random;
use super::sound::{sound, state_counts, with_states, Shape, ONE};

/// A study of more joint states than fit.
fn too_wide(random: &mut Random) -> Draft {
    let shape = Shape {
        components: 12,
        joint_states: 1 << 24,
        gates: 3,
    };
    let mut counts = state_counts(random, &shape);
    while counts
        .iter()
        .map(|&states| usize::from(states))
        .product::<usize>()
        <= 4096
    {
        match counts.len() {
            12 => counts[random.below(12)] = 4,
            _ => counts.push(random.between(2, 4) as u8),
        }
    }
    with_states(random, &shape, &counts)
}

/// Sets the bit of a state that the component lacks, with its four bytes or without.
fn lacking_state(random: &mut Random, draft: &mut Draft) {
    let lacking = |role| matches!(role, Role::ComponentMap { states } if states < 4);
    let places = draft.places(lacking);
    if places.is_empty() {
        return;
    }
    let at = random.pick(&places);
    let Role::ComponentMap { states } = draft.roles[at] else {
        return;
    };
    let state = random.between(usize::from(states), 3);
    draft.bytes[at] |= 1 << state;
    if random.once_in(2) {
        let next = |role| matches!(role, Role::ComponentMap { .. } | Role::GateMap);
        let behind = draft.places(next).into_iter().find(|&place| place > at);
        let end = behind.unwrap_or(draft.bytes.len());
        let value = random.pick(&[0u32, 1, ONE]);
        draft.bytes.splice(end..end, value.to_le_bytes());
        draft.roles.splice(end..end, [Role::Behind; 4]);
    }
}

/// A value that breaks the rule of a byte, or comes near to it.
fn bad_byte(random: &mut Random, role: Role, old: u8, counts: [u8; 3]) -> u8 {
    match role {
        Role::ComponentCount => random.pick(&[0, 13, 255]),
        Role::GateCount => random.pick(&[0, 33, 255]),
        Role::LoadCount => random.pick(&[0, 9, 255]),
        Role::ComponentMap { .. } => old | random.pick(&[16, 32, 64, 128, 240]),
        Role::GateMap | Role::LoadMap => old | random.pick(&[8, 16, 32, 64, 128]),
        Role::StateCount => random.pick(&[0, 1, 5, 6, 255]),
        Role::TestCount => random.pick(&[0, 13, 31, 255]),
        Role::InputCount => random.pick(&[0, 32, 33, 255]),
        Role::TestComponent => random.pick(&[counts[0], counts[0], 12, 13, 255]),
        Role::TestMask { states } => random.pick(&[0, old | 1 << states, old | 128, 255]),
        Role::Input { own } => random.pick(&[own, own, own.saturating_add(1), 32, 255]),
        Role::Threshold { standing, distinct } => {
            random.pick(&[0, distinct + 1, standing, standing + 1, 44, 255])
        }
        Role::LossGate => random.pick(&[counts[1], counts[1], 32, 254, 255]),
        Role::Probability | Role::Customers | Role::Minutes | Role::Behind => random.byte(),
    }
}

/// A number that breaks the rule of a field of four bytes, or just keeps it.
fn bad_number(random: &mut Random, role: Role) -> u32 {
    match role {
        Role::Probability => random.pick(&[ONE, ONE + 1, 1 << 31, u32::MAX]),
        Role::Customers => random.pick(&[100_001, 100_001, 1 << 24, u32::MAX]),
        _ => random.pick(&[20_001, 20_001, 100_000, u32::MAX]),
    }
}

/// Overwrites a field whose role is wanted, where the study has one, and now and then cuts the bytes right behind it.
fn overwrite(random: &mut Random, draft: &mut Draft, wanted: impl Fn(Role) -> bool) {
    let places = draft.places(wanted);
    if places.is_empty() {
        return;
    }
    let at = random.pick(&places);
    let role = draft.roles[at];
    if matches!(role, Role::Probability | Role::Customers | Role::Minutes) {
        let number = bad_number(random, role);
        // An earlier cut may have left less than four bytes.
        for (byte, new) in draft.bytes[at..].iter_mut().zip(number.to_le_bytes()) {
            *byte = new;
        }
    } else {
        let counts = [draft.bytes[0], draft.bytes[1], draft.bytes[2]];
        draft.bytes[at] = bad_byte(random, role, draft.bytes[at], counts);
        if random.once_in(5) {
            draft.cut(at + 1);
        }
    }
}

/// A gate without inputs, whose threshold is then above them, or a threshold of its own that is.
fn bad_threshold(random: &mut Random, draft: &mut Draft) {
    if random.once_in(3) {
        let gates = draft.places(|role| role == Role::GateMap);
        if !gates.is_empty() {
            draft.bytes[random.pick(&gates)] = random.pick(&[0, 1]);
        }
    } else {
        overwrite(random, draft, |role| matches!(role, Role::Threshold { .. }));
    }
}

/// A study with a gate whose threshold is met by the inputs that stand in it, but not by those that count.
fn overvoted(random: &mut Random) -> Draft {
    loop {
        let mut draft = sound(random);
        let roles = draft.roles.iter().enumerate();
        let overvotes = roles.filter_map(|(at, role)| match *role {
            Role::Threshold { standing, distinct } if distinct < standing => {
                Some((at, usize::from(distinct) + 1, usize::from(standing)))
            }
            _ => None,
        });
        let overvotes: Vec<_> = overvotes.collect();
        if !overvotes.is_empty() {
            let (at, lowest, highest) = random.pick(&overvotes);
            draft.bytes[at] = random.between(lowest, highest) as u8;
            return draft;
        }
    }
}

/// Adds bytes behind the last load, now and then more than any program's buffer holds.
fn extend(random: &mut Random, draft: &mut Draft) {
    let size = match random.below(20) {
        0 => random.between(2000, 3000),
        _ => random.between(1, 5),
    };
    for _ in 0..size {
        draft.byte(Role::Behind, random.byte());
    }
}

/// Aims a breach at one row of the refusal table, 1 to 15, or, from 17 on, at 12 for repeats alone; 16 changes any byte.
fn breach(random: &mut Random, draft: &mut Draft, row: usize) {
    use Role::*;
    match row {
        1 => draft.cut(random.below(draft.bytes.len())),
        2 => overwrite(random, draft, |r| {
            matches!(r, ComponentCount | GateCount | LoadCount)
        }),
        3 => overwrite(random, draft, |r| {
            matches!(r, ComponentMap { .. } | GateMap | LoadMap)
        }),
        4 => overwrite(random, draft, |r| r == StateCount),
        5 => lacking_state(random, draft),
        6 => overwrite(random, draft, |r| r == Probability),
        7 => *draft = too_wide(random),
        8 => overwrite(random, draft, |r| matches!(r, TestCount | InputCount)),
        9 => overwrite(random, draft, |r| r == TestComponent),
        10 => overwrite(random, draft, |r| matches!(r, TestMask { .. })),
        11 => overwrite(random, draft, |r| matches!(r, Input { .. })),
        12 => bad_threshold(random, draft),
        13 => overwrite(random, draft, |r| r == LossGate),
        14 => overwrite(random, draft, |r| matches!(r, Customers | Minutes)),
        15 => extend(random, draft),
        17.. => *draft = overvoted(random),
        _ => {
            let at = random.below(draft.bytes.len());
            draft.bytes[at] = random.byte();
        }
    }
}

/// Noise behind counts that are in range.
fn noise(random: &mut Random) -> Vec<u8> {
    let size = random.between(0, 60);
    let mut bytes = random.bytes(size);
    for (byte, most) in bytes.iter_mut().zip([12, 32, 8]) {
        *byte = random.between(1, most) as u8;
    }
    bytes
}

/// The bytes of a study with a breach, sometimes with two.
pub fn damaged(random: &mut Random) -> Vec<u8> {
    let row = random.between(1, 19);
    if row == 19 {
        return noise(random);
    }
    let mut draft = sound(random);
    breach(random, &mut draft, row);
    // A second breach tells whether the first one met is answered.
    if random.once_in(3) && !draft.bytes.is_empty() {
        let second = random.pick(&[1, 2, 3, 4, 5, 6, 8, 9, 10, 11, 12, 13, 14, 15, 16]);
        if draft.bytes.len() >= 3 {
            breach(random, &mut draft, second);
        }
    }
    draft.bytes
}
