//! Exact probabilities: each joint state has the product of what its states have, and joint states together have the sum; nothing is rounded.
use super::big::Big;
use super::losses::Losses;
use super::study::{Study, ONE};

/// What a study loses, with the exact probability of each joint state.
pub struct Exact {
    losses: Losses,
    /// By the number of the joint state, as fractions of one to the number of components.
    products: Vec<Big>,
    /// A billionth as such a fraction.
    pub unit: Big,
}

/// The product of the probabilities of its states.
fn product(study: &Study, joint: &[u8]) -> Big {
    let states = study.components.iter().zip(joint);
    states.fold(Big::new(1), |product, (component, &state)| {
        product.times(component.probability(state) as u64)
    })
}

impl Exact {
    pub fn of(study: &Study, losses: Losses) -> Exact {
        let each = losses.joint_states.iter();
        let others = 1..study.components.len();
        Exact {
            products: each.map(|joint| product(study, joint)).collect(),
            unit: others.fold(Big::new(1), |power, _| power.times(ONE as u64)),
            losses,
        }
    }

    /// What the joint states that are wanted, by their states and their class, have together.
    pub fn sum(&self, wanted: impl Fn(&[u8], u8) -> bool) -> Big {
        let Losses {
            joint_states,
            classes,
            ..
        } = &self.losses;
        let all = joint_states.iter().zip(classes).zip(&self.products);
        all.filter(|((joint, &class), _)| wanted(joint, class))
            .fold(Big::new(0), |sum, (_, product)| sum.plus(product))
    }
}
