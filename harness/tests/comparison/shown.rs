//! What a question is put to, in lent bytes: an image, and a tree in place of its gates or none.
use crate::lent::Lent;
use harness::asked::Asked;
use harness::generate::Random;
use harness::library::STUDY_BYTES;
use harness::reference::losses::{Losses, Meaning};
use harness::reference::{image, paths};

#[derive(Clone, Debug, PartialEq)]
pub struct Shown {
    image: Lent<u8>,
    tree: Option<Lent<u8>>,
}

/// The bytes that hold an image: mostly as many as it needs, some with more behind, and some too few for it.
pub fn shown(random: &mut Random, image: &[u8]) -> Lent<u8> {
    let size = match random.below(16) {
        0 => random.pick(&[0, 3, STUDY_BYTES - 1]),
        1 => STUDY_BYTES + random.between(1, 40),
        _ => STUDY_BYTES,
    };
    Lent::image(random, image, size)
}

impl Shown {
    pub fn of(random: &mut Random, asked: Asked) -> Shown {
        Shown {
            image: shown(random, asked.image),
            tree: asked.tree.map(|tree| Lent::image(random, tree, tree.len())),
        }
    }

    pub fn image(&self) -> &[u8] {
        self.image.held()
    }

    pub fn tree(&self) -> Option<&[u8]> {
        self.tree.as_ref().map(Lent::held)
    }

    /// The same for the library.
    pub fn asked(&self) -> Asked<'_> {
        Asked {
            image: self.image(),
            tree: self.tree(),
        }
    }

    /// How many paths there are, and how wide their entries are; none where the call is refused before it lists any.
    pub fn list_size(&self) -> (usize, usize) {
        let Some(study) = image::read(self.image()) else {
            return (0, 0);
        };
        match Meaning::of(&study, self.tree()) {
            Err(_) => (0, 0),
            Ok(meaning) => {
                let list = paths::paths(&Losses::of(&study, &meaning));
                (list.len(), study.components.len() + 1)
            }
        }
    }
}
