//! The chance of surviving from a rate and hours. Which bounds are given is left to the library, so that they are judged here by what is promised of
//! them, with partial sums of the exponential series as exact fractions.
use super::big::Big;
use super::refusals::{unless, TOO_FAR};
use super::study;
use crate::library::{Bounds, Chances};
use std::iter;

/// Certainty, in units.
pub const ONE: u64 = study::ONE as u64;

/// The largest exponent, in units.
pub const FARTHEST: u64 = 20_000_000_000;

/// How many units the two bounds of a chance may differ by.
const WIDEST: u64 = 64;

/// FIT times hours, in units, or 23.
pub fn exponent(fit: u32, hours: u32) -> Result<u64, u8> {
    let product = u128::from(fit) * u128::from(hours);
    unless(product <= FARTHEST.into(), TOO_FAR)?;
    Ok(product as u64)
}

/// The series at an exponent up to a power: sum / whole, and the power of the exponent.
struct Partial {
    exponent: u64,
    terms: u64,
    sum: Big,
    whole: Big,
    power: Big,
}

impl Partial {
    fn first(exponent: u64) -> Partial {
        let one = || Big::new(1);
        Partial {
            exponent,
            terms: 1,
            sum: one(),
            whole: one(),
            power: one(),
        }
    }

    /// With one term more: exponent / (one × terms) times the last.
    fn next(&self) -> Partial {
        let scale = ONE * self.terms;
        let power = self.power.times(self.exponent);
        Partial {
            exponent: self.exponent,
            terms: self.terms + 1,
            sum: self.sum.times(scale).plus(&power),
            whole: self.whole.times(scale),
            power,
        }
    }

    fn all(exponent: u64) -> impl Iterator<Item = Partial> {
        iter::successors(Some(Partial::first(exponent)), |partial| {
            Some(partial.next())
        })
    }

    /// A fraction that no partial sum passes, once each term is at most half of the one before: the terms to come are no more than the last.
    fn limit(&self) -> Option<Big> {
        let halves = 2 * self.exponent <= ONE * self.terms;
        halves.then(|| self.sum.plus(&self.power))
    }

    fn one(&self) -> Big {
        self.whole.times(ONE)
    }
}

/// Whether so many units times any partial sum are at most one.
pub fn is_lower(exponent: u64, units: u64) -> bool {
    let decided = Partial::all(exponent).find_map(|partial| {
        let one = partial.one();
        if partial.sum.times(units) > one {
            return Some(false);
        }
        let limit = partial.limit()?;
        (limit.times(units) <= one).then_some(true)
    });
    decided.expect("the sums go on until it is decided")
}

/// Whether so many units times some partial sum are at least one.
pub fn is_upper(exponent: u64, units: u64) -> bool {
    let decided = Partial::all(exponent).find_map(|partial| {
        let one = partial.one();
        if partial.sum.times(units) >= one {
            return Some(true);
        }
        let limit = partial.limit()?;
        (limit.times(units) < one).then_some(false)
    });
    decided.expect("the sums go on until it is decided")
}

/// What bounds for surviving and for failure break of what is promised at an exponent.
pub fn broken(exponent: u64, chances: Chances) -> Option<&'static str> {
    let Chances { survival, failure } = chances;
    let Bounds { lower, upper } = survival;
    if lower > upper || upper > ONE {
        return Some("not in order from 0 to one");
    }
    let promised = [
        (upper - lower <= WIDEST, "too far apart"),
        (is_lower(exponent, lower), "the lower bound is above"),
        (is_upper(exponent, upper), "the upper bound is below"),
        (failure.lower == ONE - upper, "failure's lower bound"),
        (failure.upper == ONE - lower, "failure's upper bound"),
        (exponent > 0 || lower == ONE, "an exponent of 0 is certain"),
    ];
    let first = promised.iter().find(|(kept, _)| !kept);
    first.map(|(_, what)| *what)
}
