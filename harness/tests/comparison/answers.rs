//! How calls were answered, counted: by call, and by the number where they were refused.
use crate::calls::{Call, CALLS};
use std::collections::BTreeMap;
use std::fmt;

/// How often a kind of call was answered, and how often it was refused, by number.
#[derive(Default)]
pub struct Answers {
    pub given: usize,
    refused: BTreeMap<u8, usize>,
}

impl Answers {
    pub fn count(&mut self, answer: Result<usize, u8>) {
        match answer {
            Ok(_) => self.given += 1,
            Err(number) => *self.refused.entry(number).or_default() += 1,
        }
    }

    pub fn refused_by(&self, number: u8) -> usize {
        self.refused.get(&number).copied().unwrap_or(0)
    }

    /// The numbers that were met, ascending.
    pub fn numbers(&self) -> impl Iterator<Item = u8> + '_ {
        self.refused.keys().copied()
    }

    /// How many calls were counted.
    fn all(&self) -> usize {
        self.given + self.refused.values().sum::<usize>()
    }
}

/// The answers of each call, in the order of `CALLS`.
#[derive(Default)]
pub struct Calls([Answers; CALLS.len()]);

fn place(call: Call) -> usize {
    let found = CALLS.iter().position(|&other| other == call);
    found.expect("every call is listed")
}

impl Calls {
    pub fn count(&mut self, call: Call, answer: Result<usize, u8>) {
        self.0[place(call)].count(answer);
    }

    pub fn of(&self, call: Call) -> &Answers {
        &self.0[place(call)]
    }

    /// How many calls were counted.
    pub fn all(&self) -> usize {
        self.0.iter().map(Answers::all).sum()
    }
}

/// A row for each call: how often it was answered, and how often it was refused by each number, in the order in which they are judged.
impl fmt::Display for Calls {
    fn fmt(&self, line: &mut fmt::Formatter) -> fmt::Result {
        write!(line, "{:<18} {:>8}  refused by", "call", "answered")?;
        for call in CALLS {
            let (answers, row) = (self.of(call), call.refusals());
            let others = answers.numbers().filter(|number| !row.contains(number));
            let numbers = row.iter().copied().chain(others);
            let each = numbers.map(|number| format!("{number}: {}", answers.refused_by(number)));
            let refused = each.collect::<Vec<_>>().join(", ");
            let name = call.to_string();
            write!(line, "\n{name:<18} {:>8}  {refused}", answers.given)?;
        }
        Ok(())
    }
}
