//! The image of a study: every field at its own place.
use super::study::*;
use std::array::from_fn;

pub const IMAGE_BYTES: usize = 2087;

/// The places of an image that are not filled yet.
struct Unfilled<'a>(&'a mut [u8]);

impl Unfilled<'_> {
    fn put(&mut self, bytes: &[u8]) {
        let places = std::mem::take(&mut self.0);
        let (front, rest) = places.split_at_mut(bytes.len());
        front.copy_from_slice(bytes);
        self.0 = rest;
    }

    fn component(&mut self, c: &Component) {
        self.put(&[c.states]);
        for p in c.failed {
            self.put(&p.to_le_bytes());
        }
    }

    fn gate(&mut self, g: &Gate) {
        self.put(&[g.threshold, g.tests]);
        self.put(&g.component);
        self.put(&g.mask);
        self.put(&[g.gates]);
        self.put(&g.input);
    }

    fn load(&mut self, l: &Load) {
        self.put(&[l.gate]);
        self.put(&l.customers.to_le_bytes());
        self.put(&l.minutes.to_le_bytes());
    }
}

pub fn write_image(study: &Study, image: &mut [u8]) {
    let mut places = Unfilled(image);
    places.put(&[study.components, study.gates, study.loads]);
    for c in &study.component {
        places.component(c);
    }
    for g in &study.gate {
        places.gate(g);
    }
    for l in &study.load {
        places.load(l);
    }
}

/// The places of an image that are not read yet.
struct Unread<'a>(&'a [u8]);

impl Unread<'_> {
    fn row<const SIZE: usize>(&mut self) -> [u8; SIZE] {
        let (row, rest) = self.0.split_first_chunk().expect("all of an image");
        self.0 = rest;
        *row
    }

    fn byte(&mut self) -> u8 {
        self.row::<1>()[0]
    }

    fn word(&mut self) -> u32 {
        u32::from_le_bytes(self.row())
    }

    fn component(&mut self) -> Component {
        Component {
            states: self.byte(),
            failed: from_fn(|_| self.word()),
        }
    }

    fn gate(&mut self) -> Gate {
        Gate {
            threshold: self.byte(),
            tests: self.byte(),
            component: self.row(),
            mask: self.row(),
            gates: self.byte(),
            input: self.row(),
        }
    }

    fn load(&mut self) -> Load {
        Load {
            gate: self.byte(),
            customers: self.word(),
            minutes: self.word(),
        }
    }
}

/// The study of an image, sound or not; too few bytes hold a study of zeros.
pub fn read_image(image: &[u8]) -> Study {
    if image.len() < IMAGE_BYTES {
        return Study::default();
    }
    let mut places = Unread(image);
    Study {
        components: places.byte(),
        gates: places.byte(),
        loads: places.byte(),
        component: from_fn(|_| places.component()),
        gate: from_fn(|_| places.gate()),
        load: from_fn(|_| places.load()),
    }
}
