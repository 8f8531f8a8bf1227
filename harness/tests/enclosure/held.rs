//! How much was held against exact numbers.
use harness::reference::bounds::Bounds;
use harness::reference::figures::Figures;
use harness::reference::study::{Study, MOST_COMPONENTS, MOST_JOINT_STATES, ONE};

/// Each of these must be met this often, or the studies say too little.
const OFTEN: usize = 1000;

#[derive(Debug, Default)]
pub struct Held {
    /// The most components of a study, and the most paths of a list.
    most_components: usize,
    most_paths: usize,
    /// Studies of five components or more, whose exact numbers need more than 128 bits.
    large: usize,
    /// Paths with two bounds that differ.
    rounded_paths: usize,
    /// Classes and loads with two bounds that differ.
    rounded_totals: usize,
    /// Classes and loads whose upper bound is one, where that of their paths together is more.
    cut: usize,
    /// Figures with CAIDI and without, and refused.
    stated: usize,
    unstated: usize,
    refused: usize,
}

fn is_rounded(bounds: Bounds) -> usize {
    usize::from(bounds.lower < bounds.upper)
}

impl Held {
    /// Takes note of a study that has so many paths.
    pub fn count_study(&mut self, study: &Study, paths: usize) {
        let components = study.components.len();
        self.most_components = self.most_components.max(components);
        self.most_paths = self.most_paths.max(paths);
        self.large += usize::from(components >= 5);
    }

    pub fn count_path(&mut self, bounds: Bounds) {
        self.rounded_paths += is_rounded(bounds);
    }

    /// Takes note of a class or a load, beside the sum of the upper bounds of its paths.
    pub fn count_total(&mut self, bounds: Bounds, upper: u64) {
        self.rounded_totals += is_rounded(bounds);
        self.cut += usize::from(upper > ONE as u64);
    }

    pub fn count_figures(&mut self, figures: &Result<Figures, u8>) {
        match figures {
            Err(_) => self.refused += 1,
            Ok(figures) if figures.caidi.is_some() => self.stated += 1,
            Ok(_) => self.unstated += 1,
        }
    }

    pub fn assert_enough(&self) {
        let Held {
            most_components,
            most_paths,
            large,
            rounded_paths,
            rounded_totals,
            cut,
            stated,
            unstated,
            refused,
        } = *self;
        let most = [most_components, most_paths];
        assert_eq!(most, [MOST_COMPONENTS, MOST_JOINT_STATES]);
        let bounds = [large, rounded_paths, rounded_totals, cut];
        let figures = [stated, unstated, refused];
        let least = bounds.into_iter().chain(figures).min();
        assert!(least >= Some(OFTEN), "{self:?}");
    }
}
