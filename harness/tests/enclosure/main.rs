//! The bounds that the library gives enclose the exact probabilities, as near as demand 2 asks, and its figures the exact quotients; and so do those of
//! the second implementation: by the gates of a study, and by a tree that is drawn in their place.
mod check;
mod given;
mod held;

use check::Check;
use given::{by_the_library, by_the_second, Given};
use harness::asked::Asked;
use harness::generate::{sound_input, tree, Random};
use harness::library::{self, STUDY_BYTES};
use harness::reference::exact::Exact;
use harness::reference::losses::{Losses, Meaning};
use harness::reference::opening::open;
use harness::reference::study::Study;
use harness::studies::{self, Written};
use held::Held;
use std::ops::Range;

/// One drawn study for each.
const SEEDS: Range<u64> = 2_000_000..2_006_000;

type Give = fn(&Study, Asked) -> Given;

/// Holds what is given of a study against what is exact, by its gates and by a tree that is drawn beside it.
fn hold(held: &mut Held, name: &str, bytes: &[u8], random: &mut Random, give: Give) {
    let study = &open(bytes).expect("a sound study");
    let image = &mut [0; STUDY_BYTES];
    assert_eq!(library::open(bytes, image), Ok(0), "{name}");
    let drawn = tree(random, study);
    for tree in [None, Some(&drawn[..])] {
        let meaning = Meaning::of(study, tree).expect("a tree that keeps the rules");
        let check = Check {
            name: format!("{name}, drawn: {}", tree.is_some()),
            study,
            given: give(study, Asked { image, tree }),
            exact: Exact::of(study, Losses::of(study, &meaning)),
        };
        check.all(held);
    }
}

/// Studies that are drawn, and those of the folder `studies`, some of which are as large as any.
fn hold_all(give: Give) {
    let held = &mut Held::default();
    for seed in SEEDS {
        let random = &mut Random::new(seed);
        let bytes = sound_input(random);
        hold(held, &format!("seed {seed}"), &bytes, random, give);
    }
    for study in studies::all().into_iter().filter(Written::opens) {
        let random = &mut Random::new(SEEDS.start);
        hold(held, &study.name, &study.bytes, random, give);
    }
    held.assert_enough();
}

#[test]
fn the_library_encloses_what_is_exact() {
    hold_all(by_the_library);
}

#[test]
fn the_second_implementation_encloses_what_is_exact() {
    hold_all(by_the_second);
}
