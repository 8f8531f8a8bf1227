//! The class table of a drawn tree: the bytes are read once, and each leaf writes its class at the joint states that come to it.
use super::study::COMPONENT_PLACES;

/// The byte in front of a leaf's class.
const BEFORE_CLASS: u8 = 255;

/// The mark of a component that is not asked above.
const UNASKED: u8 = 255;

/// For each component its state on a branch.
type Marks = [u8; COMPONENT_PLACES];

/// What a tree is drawn beside.
struct Beside<'a> {
    counts: &'a [u8],
    loads: u8,
}

fn due(tree: &[u8], at: usize) -> Result<u8, u8> {
    tree.get(at).copied().ok_or(21)
}

/// Writes a class at each joint state of a block that has the marks of a branch.
fn fill_branch(counts: &[u8], marks: &[u8], class: u8, block: &mut [u8]) {
    let Some((&states, behind)) = counts.split_first() else {
        block[0] = class;
        return;
    };
    let size = block.len() / usize::from(states);
    if marks[0] == UNASKED {
        for part in block.chunks_exact_mut(size) {
            fill_branch(behind, &marks[1..], class, part);
        }
    } else if marks[0] < states {
        let from = usize::from(marks[0]) * size;
        fill_branch(behind, &marks[1..], class, &mut block[from..from + size]);
    }
}

impl Beside<'_> {
    /// Reads the subtree at a place, fills its part of the block, and answers the place behind it.
    fn draw(&self, tree: &[u8], at: usize, marks: Marks, block: &mut [u8]) -> Result<usize, u8> {
        let first = due(tree, at)?;
        if first == BEFORE_CLASS {
            let class = due(tree, at + 1)?;
            if u16::from(class) >> self.loads != 0 {
                return Err(22);
            }
            fill_branch(self.counts, &marks, class, block);
            return Ok(at + 2);
        }
        let component = usize::from(first);
        if component >= self.counts.len() || marks[component] != UNASKED {
            return Err(20);
        }
        let mut place = at + 1;
        for state in 0..self.counts[component] {
            let mut below = marks;
            below[component] = state;
            place = self.draw(tree, place, below, block)?;
        }
        Ok(place)
    }
}

/// Fills a block that has a place for each joint state by a tree. Refused by 20 to 22.
pub fn draw_classes(counts: &[u8], loads: u8, tree: &[u8], block: &mut [u8]) -> Result<(), u8> {
    let beside = Beside { counts, loads };
    let end = beside.draw(tree, 0, [UNASKED; COMPONENT_PLACES], block)?;
    match end == tree.len() {
        true => Ok(()),
        false => Err(21),
    }
}
