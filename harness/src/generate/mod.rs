//! Inputs for the comparison, from a seed: sound studies, twins of them, damaged ones, altered images, trees that are drawn beside a study, and what
//! lent numbers hold.
mod altered;
mod damaged;
mod damaged_trees;
mod draft;
mod numbers;
mod random;
mod sound;
mod trees;
mod twins;

pub use altered::altered;
pub use damaged_trees::{damaged_tree, tree_noise};
pub use numbers::{chances, figures};
pub use random::Random;
pub use trees::{drawn, tree, Style};
pub use twins::twins;

/// The bytes of a study: somewhat more than half are sound, the others have a breach or several.
pub fn input(random: &mut Random) -> Vec<u8> {
    if random.below(5) < 3 {
        sound::sound(random).bytes
    } else {
        damaged::damaged(random)
    }
}

/// The bytes of a sound study.
pub fn sound_input(random: &mut Random) -> Vec<u8> {
    sound::sound(random).bytes
}
