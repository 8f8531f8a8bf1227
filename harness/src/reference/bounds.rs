//! Bounds of paths, classes and loads, in units.
use super::losses::{Losses, Meaning};
use super::paths::{paths, Path};
use super::study::{Study, ONE};
use std::collections::BTreeMap;

/// A lower and an upper bound, as they are lent.
pub use crate::library::Bounds;

/// A study's paths under a meaning, each with its bounds.
pub fn bounded_paths(study: &Study, meaning: &Meaning) -> Vec<(Path, Bounds)> {
    let list = paths(&Losses::of(study, meaning));
    list.into_iter()
        .map(|path| {
            let bounds = path_bounds(study, &path);
            (path, bounds)
        })
        .collect()
}

/// Rounded at each settled component, down and up.
fn path_bounds(study: &Study, path: &Path) -> Bounds {
    let (mut lower, mut upper) = (ONE, ONE);
    for (component, mark) in study.components.iter().zip(&path.marks) {
        if let Some(state) = *mark {
            lower = lower * component.probability(state) / ONE;
            upper = (upper * component.probability(state)).div_ceil(ONE);
        }
    }
    Bounds {
        lower: lower as u64,
        upper: upper as u64,
    }
}

/// The sums over some paths, the upper one at most one.
fn sum<'a>(bounds: impl Iterator<Item = &'a Bounds>) -> Bounds {
    let (mut lower, mut upper) = (0u128, 0u128);
    for path in bounds {
        lower += u128::from(path.lower);
        upper += u128::from(path.upper);
    }
    Bounds {
        lower: lower as u64,
        upper: upper.min(ONE) as u64,
    }
}

/// The bounds of the classes that occur, ascending.
pub fn class_bounds(list: &[(Path, Bounds)]) -> BTreeMap<u8, Bounds> {
    let classes = list.iter().map(|(path, _)| path.class);
    classes
        .map(|class| {
            let with_class = list.iter().filter(|(path, _)| path.class == class);
            (class, sum(with_class.map(|(_, bounds)| bounds)))
        })
        .collect()
}

/// The bounds for the loss of a load.
pub fn load_bounds(list: &[(Path, Bounds)], load: usize) -> Bounds {
    let losing = list
        .iter()
        .filter(|(path, _)| path.class & (1 << load) != 0);
    sum(losing.map(|(_, bounds)| bounds))
}
