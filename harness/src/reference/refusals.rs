//! The refusal table: numbers and words.

pub const SHORT: u8 = 1;
pub const COUNTS: u8 = 2;
pub const STRAY_BIT: u8 = 3;
pub const STATES: u8 = 4;
pub const NO_STATE: u8 = 5;
pub const OVER_ONE: u8 = 6;
pub const TOO_WIDE: u8 = 7;
pub const INPUTS: u8 = 8;
pub const NO_COMPONENT: u8 = 9;
pub const MASK: u8 = 10;
pub const GATE_AHEAD: u8 = 11;
pub const THRESHOLD: u8 = 12;
pub const NO_GATE: u8 = 13;
pub const LOAD_SIZE: u8 = 14;
pub const LEFT_OVER: u8 = 15;
pub const UNSOUND: u8 = 16;
pub const NO_ITEM: u8 = 17;
pub const NO_ROOM: u8 = 18;
pub const NO_CUSTOMERS: u8 = 19;
pub const NODE: u8 = 20;
pub const BAD_END: u8 = 21;
pub const LEAF: u8 = 22;
pub const TOO_FAR: u8 = 23;

/// The words in the order of their numbers, from 1 on.
const WORDS: [&str; 23] = [
    "short",
    "counts",
    "stray bit",
    "states",
    "no state",
    "over one",
    "too wide",
    "inputs",
    "no component",
    "mask",
    "gate ahead",
    "threshold",
    "no gate",
    "load size",
    "left over",
    "unsound",
    "no item",
    "no room",
    "no customers",
    "node",
    "bad end",
    "leaf",
    "too far",
];

/// The word of a refusal; none for a number that the table lacks.
pub fn word(number: u8) -> &'static str {
    let place = usize::from(number).checked_sub(1);
    place.and_then(|place| WORDS.get(place)).unwrap_or(&"")
}

/// A refusal where a rule is broken.
pub fn unless(kept: bool, number: u8) -> Result<(), u8> {
    if kept {
        Ok(())
    } else {
        Err(number)
    }
}
