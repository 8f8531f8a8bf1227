//! Reports, and the bounds of classes beside them: room too little, just enough and more, in slices that hold any numbers or are full of the largest.
use super::classes::LARGEST;
use super::{two_rooms, Pair};
use crate::calls::Call;
use crate::lent::{room, Lent};
use crate::reports::{Need, Offer};
use harness::generate::Random;
use harness::library::{self, CLASS_PLACES};
use harness::reference::calls as reference;
use harness::reference::{opening, report};

/// Just enough places, a place too few in one of the slices, and none at all.
const ENOUGH: [usize; 2] = [CLASS_PLACES; 2];
const TOO_FEW: [[usize; 2]; 2] = [
    [CLASS_PLACES - 1, CLASS_PLACES],
    [CLASS_PLACES, CLASS_PLACES - 1],
];
const NONE: [usize; 2] = [0; 2];

/// What the report of some bytes needs.
fn need(bytes: &[u8]) -> Need {
    Need {
        text: report::report(bytes).len(),
        places: opening::open(bytes).map_or(0, |_| CLASS_PLACES),
    }
}

/// Just enough of all; more of all; too little of each, with enough of the others; and any. Half of the slices are full.
fn offers(random: &mut Random, text: usize) -> [Offer; 6] {
    let needed = [text, CLASS_PLACES, CLASS_PLACES];
    let [longer, more @ ..] = needed.map(|need| need + random.between(1, 300));
    let rooms = [
        (text, ENOUGH),
        (longer, more),
        (text - 1, ENOUGH),
        (text, random.pick(&TOO_FEW)),
        (text, NONE),
        (room(random, text), two_rooms(random, CLASS_PLACES)),
    ];
    rooms.map(|(text, slices)| Offer {
        text,
        slices,
        full: random.once_in(2),
    })
}

impl Pair<'_> {
    pub fn report(&mut self, random: &mut Random) {
        let bytes = self.bytes;
        let need = need(bytes);
        for offer in offers(random, need.text) {
            let text = Lent::bytes(random, offer.text);
            let slices = offer.slices.map(|room| {
                if offer.full {
                    Lent::full_of(LARGEST, random, room)
                } else {
                    Lent::words(random, room)
                }
            });
            let both = self.compare(
                Call::Report,
                &format!("into {offer:?}"),
                (text, slices),
                |(text, [lower, upper])| {
                    library::report(bytes, text.room(), lower.room(), upper.room())
                },
                |(text, [lower, upper])| {
                    reference::report(bytes, text.room(), lower.room(), upper.room())
                },
            );
            self.tally.reports.count(&need, &offer, both.answer);
        }
    }
}
