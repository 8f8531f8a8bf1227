//! Writing an image out as bytes, and opening what was written.
use super::Pair;
use crate::calls::Call;
use crate::lent::Lent;
use crate::shown::shown;
use harness::generate::Random;
use harness::library::{self, LONGEST_STUDY, STUDY_BYTES};
use harness::reference::calls as reference;
use harness::reference::{image, writing};

impl Pair<'_> {
    /// Writes an image into no room, too little, just enough and more.
    pub fn write(&mut self, random: &mut Random, image: &[u8]) {
        let image = shown(random, image);
        self.tally.count_image(image.held());
        // Where there is nothing to write, the room is about that of the longest study.
        let need = match image::read(image.held()) {
            Some(study) => writing::write(&study).len(),
            None => LONGEST_STUDY,
        };
        let more = need + random.between(1, 300);
        for room in [0, need - 1, need, more] {
            let both = self.compare(
                Call::Write,
                &format!("into {room} bytes"),
                (image.clone(), Lent::bytes(random, room)),
                |(image, lent)| library::write(image.held(), lent.room()),
                |(image, lent)| reference::write(image.held(), lent.room()),
            );
            if let Ok(size) = both.answer {
                let written = &both.lent.1.held()[..size];
                self.open_again(random, written, &image.held()[..STUDY_BYTES]);
            }
        }
    }

    /// What was written opens to the image that it was written from.
    fn open_again(&mut self, random: &mut Random, written: &[u8], image: &[u8]) {
        let both = self.compare(
            Call::Open,
            "what was written",
            Lent::bytes(random, STUDY_BYTES),
            |lent| library::open(written, lent.room()),
            |lent| reference::open(written, lent.room()),
        );
        let same = both.lent.held() == image;
        assert!(same, "seed {}: written as another study", self.seed);
    }
}
