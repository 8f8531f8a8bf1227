//! Bounds of classes and loads: one walk over the paths of a block, which carries both bounds of the path so far and adds them up where it ends.
use super::bounds::{scale, DOWN, UP};
use super::model::Model;
use super::paths::ways_at;
use super::study::*;

pub const CLASS_PLACES: usize = 256;

/// The bounds of a path so far.
#[derive(Clone, Copy)]
struct Pair {
    lower: u64,
    upper: u64,
}

impl Pair {
    /// Nothing is settled yet.
    const CERTAIN: Pair = Pair {
        lower: ONE,
        upper: ONE,
    };

    fn times(self, probability: u32) -> Pair {
        Pair {
            lower: scale(DOWN, self.lower, probability),
            upper: scale(UP, self.upper, probability),
        }
    }

    /// Adds the bounds to two totals, of which the upper is at most one.
    fn add_to(self, lower: &mut u64, upper: &mut u64) {
        *lower += self.lower;
        *upper = ONE.min(*upper + self.upper);
    }
}

/// Hands the class of each path of a block, and its bounds behind those so far, to `add`. The probabilities are those of the block's components.
fn walk(
    counts: &[u8],
    block: &[u8],
    probabilities: &[[u32; STATE_PLACES]],
    so_far: Pair,
    add: &mut impl FnMut(u8, Pair),
) {
    if counts.is_empty() {
        return add(block[0], so_far);
    }
    let ways = ways_at(counts, block);
    let parts = block.chunks_exact(ways.size).take(ways.number);
    for (state, part) in parts.enumerate() {
        let next = if ways.blank {
            so_far
        } else {
            so_far.times(probabilities[0][state])
        };
        walk(&counts[1..], part, &probabilities[1..], next, add);
    }
}

/// Hands the class and the bounds of each path of a model to `add`.
fn walk_paths(model: &Model, mut add: impl FnMut(u8, Pair)) {
    walk(
        model.counts(),
        model.block(),
        &model.probabilities,
        Pair::CERTAIN,
        &mut add,
    );
}

/// Writes the bounds of each class, which are added up in the places themselves.
pub fn class_totals(
    model: &Model,
    lower: &mut [u64; CLASS_PLACES],
    upper: &mut [u64; CLASS_PLACES],
) {
    lower.fill(0);
    upper.fill(0);
    walk_paths(model, |class, bounds| {
        let place = usize::from(class);
        bounds.add_to(&mut lower[place], &mut upper[place]);
    });
}

/// The bounds for the loss of each load.
#[derive(Default)]
pub struct Losses {
    pub lower: [u64; LOAD_PLACES],
    pub upper: [u64; LOAD_PLACES],
}

/// Adds each path up at the loads whose bit its class has.
pub fn load_totals(model: &Model) -> Losses {
    let mut losses = Losses::default();
    walk_paths(model, |class, bounds| {
        for load in (0..LOAD_PLACES).filter(|load| class >> load & 1 == 1) {
            bounds.add_to(&mut losses.lower[load], &mut losses.upper[load]);
        }
    });
    losses
}
