//! Lent space with a margin on both sides that no call may touch.
use harness::generate::Random;
use std::fmt;

const MARGIN: usize = 24;

/// Places that hold a pattern; those between the margins are lent.
#[derive(Clone, PartialEq)]
pub struct Lent<T> {
    places: Vec<T>,
    room: usize,
}

impl<T: Copy> Lent<T> {
    fn around(places: Vec<T>) -> Lent<T> {
        let room = places.len() - 2 * MARGIN;
        Lent { places, room }
    }

    /// One place, which holds what is drawn for it, as the margins do.
    pub fn one(random: &mut Random, any: fn(&mut Random) -> T) -> Lent<T> {
        Lent::around((0..1 + 2 * MARGIN).map(|_| any(random)).collect())
    }

    /// The first of the lent places.
    pub fn first(&mut self) -> &mut T {
        &mut self.room()[0]
    }

    pub fn room(&mut self) -> &mut [T] {
        &mut self.places[MARGIN..MARGIN + self.room]
    }

    /// What stands in the lent places.
    pub fn held(&self) -> &[T] {
        &self.places[MARGIN..MARGIN + self.room]
    }
}

/// The lent places in hexadecimal, between their margins.
impl<T: Copy + fmt::Debug> fmt::Debug for Lent<T> {
    fn fmt(&self, line: &mut fmt::Formatter) -> fmt::Result {
        for (k, place) in self.places.iter().enumerate() {
            let border = k == MARGIN || k == MARGIN + self.room;
            write!(line, "{}{place:02x?}", if border { " | " } else { " " })?;
        }
        Ok(())
    }
}

impl Lent<u8> {
    pub fn bytes(random: &mut Random, room: usize) -> Lent<u8> {
        Lent::around(random.bytes(room + 2 * MARGIN))
    }

    /// Lent bytes that hold an image at their front.
    pub fn image(random: &mut Random, image: &[u8], room: usize) -> Lent<u8> {
        let mut lent = Lent::bytes(random, room);
        let front = room.min(image.len());
        lent.room()[..front].copy_from_slice(&image[..front]);
        lent
    }
}

impl Lent<u64> {
    pub fn words(random: &mut Random, room: usize) -> Lent<u64> {
        Lent::around(random.words(room + 2 * MARGIN))
    }

    /// Lent places that all hold a number.
    pub fn full_of(number: u64, random: &mut Random, room: usize) -> Lent<u64> {
        let mut lent = Lent::words(random, room);
        lent.room().fill(number);
        lent
    }
}

/// A room that is enough, now and then with some to spare, or that is not.
pub fn room(random: &mut Random, need: usize) -> usize {
    match random.below(8) {
        0 => 0,
        1 | 2 => need.saturating_sub(1),
        3 => need + random.between(1, 300),
        4 => random.below(need + 1),
        _ => need,
    }
}
