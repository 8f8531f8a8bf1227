//! Whole numbers of any size, as far as products with a number, sums and comparisons.
use std::cmp::Ordering;

/// The digits to the base 2^64, lowest first; the highest is not 0.
#[derive(Clone, Debug, PartialEq, Eq)]
pub struct Big(Vec<u64>);

impl Big {
    pub fn new(n: u64) -> Big {
        Big(vec![n]).trimmed()
    }

    fn trimmed(mut self) -> Big {
        while self.0.last() == Some(&0) {
            self.0.pop();
        }
        self
    }

    pub fn times(&self, n: u64) -> Big {
        let mut carried = 0;
        let mut digits = Vec::with_capacity(self.0.len() + 1);
        for &digit in &self.0 {
            let product = u128::from(digit) * u128::from(n) + carried;
            digits.push(product as u64);
            carried = product >> 64;
        }
        digits.push(carried as u64);
        Big(digits).trimmed()
    }

    pub fn plus(&self, other: &Big) -> Big {
        let places = self.0.len().max(other.0.len());
        let digit = |of: &Big, place: usize| u128::from(of.0.get(place).copied().unwrap_or(0));
        let mut carried = 0;
        let mut digits = Vec::with_capacity(places + 1);
        for place in 0..places {
            let sum = digit(self, place) + digit(other, place) + carried;
            digits.push(sum as u64);
            carried = sum >> 64;
        }
        digits.push(carried as u64);
        Big(digits).trimmed()
    }
}

impl Ord for Big {
    fn cmp(&self, other: &Big) -> Ordering {
        let places = self.0.len().cmp(&other.0.len());
        places.then_with(|| self.0.iter().rev().cmp(other.0.iter().rev()))
    }
}

impl PartialOrd for Big {
    fn partial_cmp(&self, other: &Big) -> Option<Ordering> {
        Some(self.cmp(other))
    }
}
