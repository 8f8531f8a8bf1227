//! Damaged trees: each way in which a drawn tree is refused, some followed by a second one, and noise.
use super::random::Random;
use super::trees::{tree, BEFORE_CLASS};
use crate::reference::study::Study;

/// A subtree among the bytes of a tree.
struct Subtree {
    from: usize,
    end: usize,
    /// The components that are asked above it.
    above: Vec<u8>,
}

/// Adds the subtree at a place and all below it, each behind what it hangs from; answers where it ends.
fn gather(study: &Study, tree: &[u8], from: usize, above: &[u8], all: &mut Vec<Subtree>) -> usize {
    let place = all.len();
    let leaf = from + 2;
    all.push(Subtree {
        from,
        end: leaf,
        above: above.to_vec(),
    });
    if tree[from] != BEFORE_CLASS {
        let asked = &study.components[usize::from(tree[from])];
        let above = [above, &[tree[from]]].concat();
        let mut end = from + 1;
        for _ in 0..asked.states {
            end = gather(study, tree, end, &above, all);
        }
        all[place].end = end;
    }
    all[place].end
}

/// A tree that keeps every rule, in its parts.
struct Whole<'a> {
    study: &'a Study,
    bytes: Vec<u8>,
    subtrees: Vec<Subtree>,
}

impl Whole<'_> {
    fn drawn<'a>(random: &mut Random, study: &'a Study) -> Whole<'a> {
        let bytes = tree(random, study);
        let mut subtrees = Vec::new();
        gather(study, &bytes, 0, &[], &mut subtrees);
        Whole {
            study,
            bytes,
            subtrees,
        }
    }

    /// One of the subtrees; the whole tree is among them.
    fn any(&self, random: &mut Random) -> &Subtree {
        &self.subtrees[random.below(self.subtrees.len())]
    }

    fn leaf(&self, random: &mut Random) -> &Subtree {
        let all = self.subtrees.iter();
        let leaves: Vec<&Subtree> = all
            .filter(|subtree| self.bytes[subtree.from] == BEFORE_CLASS)
            .collect();
        random.pick(&leaves)
    }

    /// Has a component asked again below itself: with a leaf for each state in place of a leaf, or by its number alone.
    fn ask_again(&self, random: &mut Random) -> Vec<u8> {
        let mut bytes = self.bytes.clone();
        let leaf = self.leaf(random);
        let Some(last) = leaf.above.len().checked_sub(1) else {
            // Nothing is asked: the leaf becomes two questions for component 0.
            bytes.splice(..0, [0, 0]);
            return bytes;
        };
        let again = leaf.above[random.between(0, last)];
        if random.once_in(2) {
            bytes[leaf.from] = again;
        } else {
            let states = usize::from(self.study.components[usize::from(again)].states);
            let leaves = self.bytes[leaf.from..leaf.end].repeat(states);
            bytes.splice(leaf.from..leaf.end, [vec![again], leaves].concat());
        }
        bytes
    }

    /// Asks a component that the study lacks.
    fn ask_lacking(&self, random: &mut Random) -> Vec<u8> {
        let count = self.study.components.len();
        let any = random.between(count, 254);
        let mut bytes = self.bytes.clone();
        bytes[self.any(random).from] = random.pick(&[count, count, 12, 13, 254, any]) as u8;
        bytes
    }

    /// Has a leaf lose a load that the study lacks, where there can be such a load.
    fn lose_lacking(&self, random: &mut Random) -> Vec<u8> {
        let mut bytes = self.bytes.clone();
        let loads = self.study.loads.len();
        if loads < 8 {
            let class = self.leaf(random).from + 1;
            bytes[class] |= 1 << random.between(loads, 7);
        }
        bytes
    }

    /// Leaves a subtree out, or has it stand twice.
    fn miscount(&self, random: &mut Random) -> Vec<u8> {
        let subtree = self.any(random);
        let mut bytes = self.bytes.clone();
        if random.once_in(2) {
            bytes.drain(subtree.from..subtree.end);
        } else {
            let twice = self.bytes[subtree.from..subtree.end].to_vec();
            bytes.splice(subtree.from..subtree.from, twice);
        }
        bytes
    }
}

/// Cuts the bytes off at a place, adds some, or changes one.
fn deface(random: &mut Random, bytes: &mut Vec<u8>) {
    match random.below(3) {
        0 => bytes.truncate(random.below(bytes.len() + 1)),
        1 => {
            let size = random.between(1, 5);
            bytes.extend(random.bytes(size));
        }
        _ if bytes.is_empty() => {}
        _ => {
            let (at, any) = (random.below(bytes.len()), random.byte());
            bytes[at] = random.pick(&[0, 1, BEFORE_CLASS, bytes[at] ^ 1, any]);
        }
    }
}

/// Bytes of which many are leaves and low components.
pub fn tree_noise(random: &mut Random) -> Vec<u8> {
    let size = random.between(0, 12);
    let bytes = (0..size).map(|_| random.pick(&[0, 0, 1, 2, BEFORE_CLASS, BEFORE_CLASS, 128]));
    bytes.collect()
}

/// The bytes of a tree with a breach, sometimes with two; a few keep the rules.
pub fn damaged_tree(random: &mut Random, study: &Study) -> Vec<u8> {
    let whole = Whole::drawn(random, study);
    let mut bytes = match random.below(12) {
        0 | 1 => whole.ask_again(random),
        2 | 3 => whole.ask_lacking(random),
        4..=6 => whole.lose_lacking(random),
        7 | 8 => whole.miscount(random),
        9 => tree_noise(random),
        _ => {
            let mut bytes = whole.bytes;
            deface(random, &mut bytes);
            return bytes;
        }
    };
    // A second breach tells whether the first one met is answered.
    if random.once_in(3) {
        deface(random, &mut bytes);
    }
    bytes
}
