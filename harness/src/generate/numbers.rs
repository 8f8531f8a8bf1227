//! Numbers to lend for bounds, which hold anything.
use super::Random;
use crate::library::{Bounds, Chances, Figures};

fn bounds(random: &mut Random) -> Bounds {
    [random.draw(), random.draw()].into()
}

/// Those for the figures.
pub fn figures(random: &mut Random) -> Figures {
    Figures {
        saifi: bounds(random),
        saidi: bounds(random),
        caidi: bounds(random),
        maifi: bounds(random),
    }
}

/// Those for the chances of surviving and of failure.
pub fn chances(random: &mut Random) -> Chances {
    Chances {
        survival: bounds(random),
        failure: bounds(random),
    }
}
