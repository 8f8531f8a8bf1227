//! What paths, bounds and figures are worked out of: state counts, the class of each joint state, and probabilities.
use super::classes::fill_classes;
use super::drawn::draw_classes;
use super::study::*;

/// The probabilities of the states of each component.
pub type Probabilities = [[u32; STATE_PLACES]; COMPONENT_PLACES];

pub struct Model {
    counts: [u8; COMPONENT_PLACES],
    components: usize,
    table: [u8; MOST_JOINT_STATES],
    joint_states: usize,
    pub probabilities: Probabilities,
}

impl Model {
    /// A model whose class table is not filled yet.
    fn unfilled(study: &Study) -> Model {
        let all = study.state_counts();
        let counts = &all[..usize::from(study.components)];
        Model {
            counts: all,
            components: counts.len(),
            table: [0; MOST_JOINT_STATES],
            joint_states: counts.iter().map(|&states| usize::from(states)).product(),
            probabilities: probability_table(study),
        }
    }

    /// A study with the classes of its gates.
    pub fn of(study: &Study) -> Model {
        let mut model = Model::unfilled(study);
        let counts = &model.counts[..model.components];
        fill_classes(study, counts, &mut model.table[..model.joint_states]);
        model
    }

    /// A study with the classes of a drawn tree. Refused by 20 to 22.
    pub fn drawn(study: &Study, tree: &[u8]) -> Result<Model, u8> {
        let mut model = Model::unfilled(study);
        let counts = &model.counts[..model.components];
        draw_classes(
            counts,
            study.loads,
            tree,
            &mut model.table[..model.joint_states],
        )?;
        Ok(model)
    }

    pub fn counts(&self) -> &[u8] {
        &self.counts[..self.components]
    }

    /// The classes of all joint states, in order.
    pub fn block(&self) -> &[u8] {
        &self.table[..self.joint_states]
    }
}

fn probability_table(study: &Study) -> Probabilities {
    let mut table = [[0; STATE_PLACES]; COMPONENT_PLACES];
    for (row, c) in table.iter_mut().zip(study.components()) {
        let [p1, p2, p3] = c.failed;
        *row = [ONE as u32 - (p1 + p2 + p3), p1, p2, p3];
    }
    table
}
