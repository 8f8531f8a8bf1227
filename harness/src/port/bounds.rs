//! Bounds of a path: a product of probabilities, divided by one at each step and rounded down or up.
use super::model::Probabilities;
use super::paths::BLANK;
use super::study::ONE;

/// What is added before a division by one.
pub const DOWN: u64 = 0;
pub const UP: u64 = ONE - 1;

/// A bound with one factor more.
pub fn scale(rounding: u64, bound: u64, probability: u32) -> u64 {
    (bound * u64::from(probability) + rounding) / ONE
}

pub fn path_bound(rounding: u64, probabilities: &Probabilities, marks: &[u8]) -> u64 {
    let mut bound = ONE;
    for (row, &mark) in probabilities.iter().zip(marks) {
        if mark != BLANK {
            bound = scale(rounding, bound, row[usize::from(mark)]);
        }
    }
    bound
}
