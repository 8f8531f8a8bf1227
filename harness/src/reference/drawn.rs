//! Drawn trees: their bytes read from left to right, depth first, and the leaf that a joint state comes to.
use super::refusals::*;
use super::study::{Study, MOST_LOADS};

/// The byte in front of a leaf's class.
const BEFORE_CLASS: u8 = 255;

/// An event tree that was drawn node by node.
pub enum Tree {
    /// The class of every joint state that comes here.
    Leaf(u8),
    /// A component is asked, and each of its states has a subtree.
    Node(u8, Vec<Tree>),
}

impl Tree {
    /// The class of the leaf that a joint state comes to.
    pub fn class(&self, joint: &[u8]) -> u8 {
        match self {
            Tree::Leaf(class) => *class,
            Tree::Node(component, subtrees) => {
                let state = joint[usize::from(*component)];
                subtrees[usize::from(state)].class(joint)
            }
        }
    }
}

/// Takes the next byte.
fn due(unread: &mut &[u8]) -> Result<u8, u8> {
    let (&byte, rest) = unread.split_first().ok_or(BAD_END)?;
    *unread = rest;
    Ok(byte)
}

/// Takes the subtree that comes next, below the components that are asked above it.
fn subtree(study: &Study, unread: &mut &[u8], above: &[u8]) -> Result<Tree, u8> {
    let first = due(unread)?;
    if first == BEFORE_CLASS {
        let class = due(unread)?;
        let mut lacked = study.loads.len()..MOST_LOADS;
        unless(lacked.all(|load| class & (1 << load) == 0), LEAF)?;
        return Ok(Tree::Leaf(class));
    }
    let asked = study.components.get(usize::from(first)).ok_or(NODE)?;
    unless(!above.contains(&first), NODE)?;
    let above = [above, &[first]].concat();
    let each_state = (0..asked.states).map(|_| subtree(study, unread, &above));
    Ok(Tree::Node(first, each_state.collect::<Result<_, _>>()?))
}

/// The tree that the bytes beside a study give, or the number of the first breach.
pub fn read(study: &Study, bytes: &[u8]) -> Result<Tree, u8> {
    let mut unread = bytes;
    let tree = subtree(study, &mut unread, &[])?;
    unless(unread.is_empty(), BAD_END)?;
    Ok(tree)
}
