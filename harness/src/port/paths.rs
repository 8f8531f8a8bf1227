//! The paths of a block of the class table: how many, and the list of them.
use super::study::COMPONENT_PLACES;

/// The mark of a blank component.
pub const BLANK: u8 = 255;

/// How many ways paths go on at the first component, and how many classes each has.
pub struct Ways {
    pub blank: bool,
    pub number: usize,
    pub size: usize,
}

pub fn ways_at(counts: &[u8], block: &[u8]) -> Ways {
    let states = usize::from(counts[0]);
    let size = block.len() / states;
    let (first, others) = block.split_at(size);
    let blank = others.chunks_exact(size).all(|part| part == first);
    Ways {
        blank,
        number: if blank { 1 } else { states },
        size,
    }
}

pub fn count_paths(counts: &[u8], block: &[u8]) -> usize {
    if counts.is_empty() {
        return 1;
    }
    let ways = ways_at(counts, block);
    let parts = block.chunks_exact(ways.size).take(ways.number);
    parts.map(|part| count_paths(&counts[1..], part)).sum()
}

/// Writes the paths of a block from a place on, behind the marks of the `front` components before it.
fn list_block(
    counts: &[u8],
    block: &[u8],
    marks: &mut [u8; COMPONENT_PLACES],
    front: usize,
    list: &mut [u8],
    at: usize,
) -> usize {
    if counts.is_empty() {
        list[at..at + front].copy_from_slice(&marks[..front]);
        list[at + front] = block[0];
        return at + front + 1;
    }
    let ways = ways_at(counts, block);
    let parts = block.chunks_exact(ways.size).take(ways.number);
    let mut place = at;
    for (state, part) in parts.enumerate() {
        marks[front] = if ways.blank { BLANK } else { state as u8 };
        place = list_block(&counts[1..], part, marks, front + 1, list, place);
    }
    place
}

/// Lists the paths at the front of a buffer, which must have the room.
pub fn list_paths(counts: &[u8], block: &[u8], list: &mut [u8]) {
    let mut marks = [0; COMPONENT_PLACES];
    list_block(counts, block, &mut marks, 0, list, 0);
}
