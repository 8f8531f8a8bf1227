//! Compares every call of the proved library with the second implementation, on generated inputs: sound, damaged and altered studies, and trees that
//! are drawn beside them, damaged or not; and rates beside hours.
//! The words behind `cargo test --test comparison --` may be another number of inputs, and another first seed.
mod answers;
mod calls;
mod enough;
mod lent;
mod orders;
mod pair;
mod repeats;
mod reports;
mod shown;
mod survival;
mod tally;

use harness::asked::Asked;
use harness::generate::{self, Random};
use harness::reference::image;
use harness::reference::study::Study;
use pair::Pair;
use std::env;
use tally::Tally;

const INPUTS: u64 = 20_000;
const FIRST_SEED: u64 = 0;

/// More room than the longest word needs.
const MOST_ROOM: usize = 16;

/// How often each word is asked for in each room: once would be too seldom for the rooms that are too little.
const WORD_ROUNDS: usize = 4;

/// Items that studies have, and others that they lack.
fn item(random: &mut Random, image: &[u8], count_at: usize) -> usize {
    let count = usize::from(image[count_at]);
    match random.below(4) {
        0 => random.pick(&[count, count + 1, 12, 255, 256, 1 << 32, usize::MAX]),
        _ => random.below(count.max(1)),
    }
}

fn probability(random: &mut Random) -> u32 {
    match random.below(6) {
        0..=2 => 0,
        3 => random.pick(&[1, 333_333_333, 999_999_999, 1_000_000_000, 1_000_000_001]),
        4 => random.below(400_000_000) as u32,
        _ => random.word(),
    }
}

fn size(random: &mut Random, most: u32) -> u32 {
    match random.below(4) {
        0 => random.pick(&[0, 1, 5, 6, most, most + 1, u32::MAX]),
        1 => random.word(),
        _ => random.below(most as usize + 1) as u32,
    }
}

/// One to three edits in a row, each on what the one before left.
fn compare_edits(pair: &mut Pair, random: &mut Random, image: &[u8]) -> Vec<u8> {
    let mut current = image.to_vec();
    for _ in 0..random.between(1, 3) {
        let component = item(random, &current, 0);
        let load = item(random, &current, 2);
        current = match random.below(3) {
            0 => {
                let p = [(); 3].map(|_| probability(random));
                pair.set_probabilities(random, &current, component, p)
            }
            1 => {
                let customers = size(random, 100_000);
                pair.set_customers(random, &current, load, customers)
            }
            _ => {
                let minutes = size(random, 20_000);
                pair.set_minutes(random, &current, load, minutes)
            }
        };
    }
    current
}

/// Every call that asks an image for something which a drawn tree can decide.
fn compare_questions(pair: &mut Pair, random: &mut Random, image: &[u8], tree: Option<&[u8]>) {
    let asked = Asked { image, tree };
    pair.list_paths(random, asked);
    pair.path_bounds(random, asked);
    pair.class_bounds(random, asked);
    let load = item(random, image, 2);
    pair.load_bounds(random, asked, load);
    pair.figures(random, asked);
}

/// A tree beside a study: as it should be, or damaged.
fn tree(random: &mut Random, study: &Study) -> Vec<u8> {
    match random.below(2) {
        0 => generate::tree(random, study),
        _ => generate::damaged_tree(random, study),
    }
}

/// An image that was altered, with its own gates and beside a tree that was drawn before.
fn compare_altered(pair: &mut Pair, random: &mut Random, image: &[u8], study: &Study) {
    let altered = generate::altered(random, image);
    compare_questions(pair, random, &altered, None);
    let before = tree(random, study);
    compare_questions(pair, random, &altered, Some(&before));
    pair.write(random, &altered);
    let edited = compare_edits(pair, random, &altered);
    pair.write(random, &edited);
}

fn compare_input(tally: &mut Tally, seed: u64) {
    let mut random = Random::new(seed);
    let random = &mut random;
    let bytes = generate::input(random);
    tally.inputs += 1;
    let mut pair = Pair::new(seed, &bytes, tally);
    let image = pair.open(random);
    pair.report(random);
    compare_questions(&mut pair, random, &image, None);
    pair.write(random, &image);
    let edited = compare_edits(&mut pair, random, &image);
    pair.loads_lost(random.byte());
    // What is unsound stays so; only a sound image has more to say once it is changed.
    let Some(study) = image::read(&edited) else {
        let noise = generate::tree_noise(random);
        return compare_questions(&mut pair, random, &edited, Some(&noise));
    };
    compare_questions(&mut pair, random, &edited, None);
    pair.write(random, &edited);
    for tree in [tree(random, &study), generate::damaged_tree(random, &study)] {
        compare_questions(&mut pair, random, &edited, Some(&tree));
    }
    pair.draw_gates(random, &edited, &study);
    for _ in 0..2 {
        compare_altered(&mut pair, random, &edited, &study);
    }
}

/// The word of every number, into too little room, just enough and more, which holds something else each time.
fn compare_words(tally: &mut Tally, seed: u64) {
    let mut random = Random::new(seed);
    let mut pair = Pair::new(seed, &[], tally);
    for _ in 0..WORD_ROUNDS {
        for number in 0..=255 {
            for room in 0..=MOST_ROOM {
                pair.refusal_word(&mut random, number, room);
            }
        }
    }
}

fn main() {
    let mut numbers = env::args().filter_map(|word| word.parse().ok());
    let inputs = numbers.next().unwrap_or(INPUTS);
    let first_seed = numbers.next().unwrap_or(FIRST_SEED);
    let mut tally = Tally::default();
    compare_words(&mut tally, first_seed);
    survival::compare_survival(&mut tally, first_seed);
    for seed in first_seed..first_seed + inputs {
        compare_input(&mut tally, seed);
    }
    println!("{tally}");
    println!(
        "the widest gap between two bounds of a chance of surviving: {} units",
        survival::widest_gap(first_seed)
    );
    enough::assert_no_others(&tally.calls);
    if inputs >= INPUTS {
        enough::assert_enough(&tally);
    }
}
