//! Bounds of classes, in slices that hold any numbers, in slices full of the largest number, and in cleared ones.
use super::{two_rooms, Agreed, Pair};
use crate::calls::Question;
use crate::lent::Lent;
use crate::shown::Shown;
use harness::asked::Asked;
use harness::generate::Random;
use harness::library::CLASS_PLACES;
use harness::reference::calls as reference;

/// No bound is as large.
pub const LARGEST: u64 = u64::MAX;

/// Places for the bounds of any study, and one behind them in the slice for upper ones.
const ENOUGH: [usize; 2] = [CLASS_PLACES, CLASS_PLACES + 1];

/// Slices for lower and upper bounds.
type Slices = [Lent<u64>; 2];

impl Pair<'_> {
    pub fn class_bounds(&mut self, random: &mut Random, asked: Asked) {
        let shown = &Shown::of(random, asked);
        for rooms in [two_rooms(random, CLASS_PLACES), ENOUGH] {
            self.bound_classes(shown, rooms.map(|room| Lent::words(random, room)));
            self.overwrite(random, shown, rooms);
        }
    }

    /// Slices of so many places full of the largest number, beside cleared ones.
    fn overwrite(&mut self, random: &mut Random, shown: &Shown, rooms: [usize; 2]) {
        let [full, cleared] = [LARGEST, 0].map(|number| {
            let slices = rooms.map(|room| Lent::full_of(number, random, room));
            self.bound_classes(shown, slices)
        });
        self.assert_overwritten(&full, &cleared);
        self.tally.in_full.count(full.answer);
    }

    fn bound_classes(&mut self, shown: &Shown, slices: Slices) -> Agreed<Slices> {
        self.ask(
            Question::ClassBounds,
            shown.clone(),
            slices,
            |shown, [lower, upper]| shown.asked().class_bounds(lower.room(), upper.room()),
            |shown, [lower, upper]| {
                let (image, tree) = (shown.image(), shown.tree());
                reference::class_bounds(image, tree, lower.room(), upper.room())
            },
        )
    }

    /// Slices that were full hold in the places of classes what cleared ones hold there, and keep the largest number in all others: in every place where the call is refused.
    fn assert_overwritten(&self, full: &Agreed<Slices>, cleared: &Agreed<Slices>) {
        let named = full.answer.map_or(0, |_| CLASS_PLACES);
        for (full, cleared) in full.lent.iter().zip(&cleared.lent) {
            let (bounds, others) = full.held().split_at(named);
            let same = *bounds == cleared.held()[..named];
            let kept = others.iter().all(|&place| place == LARGEST);
            assert!(same && kept, "seed {}: full slices", self.seed);
        }
    }
}
