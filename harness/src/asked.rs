//! What the library can be asked of a study, by its gates or by a tree that is drawn in their place.
use crate::library::{self, Answer, Figures, CLASS_PLACES, LIST_BYTES};

/// A study, and what says which of its loads are lost.
#[derive(Clone, Copy)]
pub struct Asked<'a> {
    /// The image of the study.
    pub image: &'a [u8],
    /// The bytes of a tree; None where the gates count.
    pub tree: Option<&'a [u8]>,
}

/// The proved library's answers.
impl Asked<'_> {
    pub fn list_paths(&self, buffer: &mut [u8]) -> Answer<usize> {
        match self.tree {
            None => library::list_paths(self.image, buffer),
            Some(tree) => library::drawn_list_paths(self.image, tree, buffer),
        }
    }

    pub fn path_bounds(&self, lower: &mut [u64], upper: &mut [u64]) -> Answer<usize> {
        match self.tree {
            None => library::path_bounds(self.image, lower, upper),
            Some(tree) => library::drawn_path_bounds(self.image, tree, lower, upper),
        }
    }

    pub fn class_bounds(&self, lower: &mut [u64], upper: &mut [u64]) -> Answer<usize> {
        match self.tree {
            None => library::class_bounds(self.image, lower, upper),
            Some(tree) => library::drawn_class_bounds(self.image, tree, lower, upper),
        }
    }

    pub fn load_bounds(&self, load: usize, lower: &mut u64, upper: &mut u64) -> Answer<usize> {
        match self.tree {
            None => library::load_bounds(self.image, load, lower, upper),
            Some(tree) => library::drawn_load_bounds(self.image, tree, load, lower, upper),
        }
    }

    pub fn figures(&self, figures: &mut Figures) -> Answer<usize> {
        match self.tree {
            None => library::figures(self.image, figures),
            Some(tree) => library::drawn_figures(self.image, tree, figures),
        }
    }
}

/// Everything that the library says of a sound study, with room enough: each answer, and what was written.
#[derive(Debug, PartialEq)]
pub struct Everything {
    pub list: (Answer<usize>, Vec<u8>),
    pub paths: (Answer<usize>, [Vec<u64>; 2]),
    pub classes: (Answer<usize>, [Vec<u64>; 2]),
    pub loads: Vec<(Answer<usize>, [u64; 2])>,
    pub figures: (Answer<usize>, Figures),
}

impl Asked<'_> {
    pub fn everything(&self) -> Everything {
        let mut list = vec![0; LIST_BYTES];
        let listed = self.list_paths(&mut list);
        list.truncate(listed.unwrap_or(0) * (usize::from(self.image[0]) + 1));
        let [mut lower, mut upper] = [(); 2].map(|_| vec![0; listed.unwrap_or(0)]);
        let paths = self.path_bounds(&mut lower, &mut upper);
        let [mut least, mut most] = [(); 2].map(|_| vec![0; CLASS_PLACES]);
        let classes = self.class_bounds(&mut least, &mut most);
        let loads = usize::from(self.image[2]);
        let each_load = (0..loads).map(|load| {
            let [mut lower, mut upper] = [0; 2];
            let answer = self.load_bounds(load, &mut lower, &mut upper);
            (answer, [lower, upper])
        });
        let mut figures = Figures::default();
        let stated = self.figures(&mut figures);
        Everything {
            list: (listed, list),
            paths: (paths, [lower, upper]),
            classes: (classes, [least, most]),
            loads: each_load.collect(),
            figures: (stated, figures),
        }
    }
}
