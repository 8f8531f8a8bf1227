//! Two sound studies that differ only in the order of their gates' inputs.
use super::draft::{Draft, Role};
use super::random::Random;
use super::sound::sound;

/// Puts the inputs behind a count, of so many bytes each, in another order.
fn shuffle(random: &mut Random, bytes: &mut [u8], count_at: usize, size: usize) {
    let first = count_at + 1;
    for j in 1..usize::from(bytes[count_at]) {
        let k = random.below(j + 1);
        for byte in 0..size {
            bytes.swap(first + j * size + byte, first + k * size + byte);
        }
    }
}

/// The bytes of a study, and those of its twin.
pub fn twins(random: &mut Random) -> [Vec<u8>; 2] {
    let Draft { bytes, roles } = sound(random);
    let mut twin = bytes.clone();
    for (at, role) in roles.iter().enumerate() {
        match role {
            Role::TestCount => shuffle(random, &mut twin, at, 2),
            Role::InputCount => shuffle(random, &mut twin, at, 1),
            _ => {}
        }
    }
    [bytes, twin]
}
