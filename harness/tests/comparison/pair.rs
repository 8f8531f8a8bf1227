//! One input under both implementations: each call is made twice on equal space, and everything must be alike afterwards.
mod classes;
mod drawn;
mod reports;
mod saving;

use crate::calls::{Call, Question};
use crate::lent::{room, Lent};
use crate::shown::{shown, Shown};
use crate::tally::Tally;
use harness::asked::Asked;
use harness::generate::{self, Random};
use harness::library::{self, STUDY_BYTES};
use harness::reference::calls as reference;
use harness::reference::opening;
use harness::studies::to_hexadecimal;
use std::fmt::Debug;

type Answer = Result<usize, u8>;

/// The places of two slices for bounds: half of the pairs have as many as are needed.
fn two_rooms(random: &mut Random, need: usize) -> [usize; 2] {
    match random.below(2) {
        0 => [need, need],
        _ => [(); 2].map(|_| room(random, need)),
    }
}

/// What both made of a call.
struct Agreed<L> {
    answer: Answer,
    lent: L,
}

pub struct Pair<'a> {
    seed: u64,
    bytes: &'a [u8],
    tally: &'a mut Tally,
}

impl<'a> Pair<'a> {
    pub fn new(seed: u64, bytes: &'a [u8], tally: &'a mut Tally) -> Pair<'a> {
        Pair { seed, bytes, tally }
    }

    /// Makes a call twice, on two copies of what is lent, and hands back the answer and the space.
    fn compare<L: Clone + PartialEq + Debug>(
        &mut self,
        call: Call,
        how: &str,
        lent: L,
        proved: impl Fn(&mut L) -> Answer,
        second: impl Fn(&mut L) -> Answer,
    ) -> Agreed<L> {
        let (mut ours, mut theirs) = (lent.clone(), lent.clone());
        let found = proved(&mut ours);
        let due = second(&mut theirs);
        if found != due || ours != theirs {
            println!("seed {}: {call} {how}", self.seed);
            println!("study:  {}", to_hexadecimal(self.bytes));
            println!("lent:   {lent:?}");
            println!("proved: {ours:?}");
            println!("second: {theirs:?}");
            panic!("{call} {how}: {found:?} where {due:?} is due, or what was lent differs");
        }
        self.tally.calls.count(call, due);
        Agreed {
            answer: due,
            lent: theirs,
        }
    }

    /// Puts a question, and hands back the answer and the space that was lent for it.
    fn ask<L: Clone + PartialEq + Debug>(
        &mut self,
        question: Question,
        shown: Shown,
        lent: L,
        proved: impl Fn(&Shown, &mut L) -> Answer,
        second: impl Fn(&Shown, &mut L) -> Answer,
    ) -> Agreed<L> {
        let call = match shown.tree() {
            None => Call::Gates(question),
            Some(_) => Call::Drawn(question),
        };
        let both = self.compare(
            call,
            "as shown",
            (shown, lent),
            |(shown, lent)| proved(shown, lent),
            |(shown, lent)| second(shown, lent),
        );
        let (_, lent) = both.lent;
        Agreed {
            answer: both.answer,
            lent,
        }
    }

    /// The image of the study; where it does not open, zeros or what stood in the space.
    pub fn open(&mut self, random: &mut Random) -> Vec<u8> {
        let bytes = self.bytes;
        let mut opened = (Err(0), vec![0; STUDY_BYTES]);
        for room in [room(random, STUDY_BYTES), STUDY_BYTES] {
            let both = self.compare(
                Call::Open,
                &format!("into {room} bytes"),
                Lent::bytes(random, room),
                |lent| library::open(bytes, lent.room()),
                |lent| reference::open(bytes, lent.room()),
            );
            opened = (both.answer, both.lent.held().to_vec());
        }
        let (answer, image) = opened;
        let (given, judged) = opening::read_so_far(bytes);
        self.tally.count_given(&given, judged);
        if answer.is_err() && random.once_in(2) {
            return vec![0; STUDY_BYTES];
        }
        image
    }

    /// An edit, and the image that it leaves.
    fn edit(
        &mut self,
        random: &mut Random,
        image: &[u8],
        call: Call,
        how: &str,
        proved: impl Fn(&mut [u8]) -> Answer,
        second: impl Fn(&mut [u8]) -> Answer,
    ) -> Vec<u8> {
        let both = self.compare(
            call,
            how,
            shown(random, image),
            |lent| proved(lent.room()),
            |lent| second(lent.room()),
        );
        match both.lent.held().get(..STUDY_BYTES) {
            Some(left) => left.to_vec(),
            None => image.to_vec(),
        }
    }

    pub fn set_probabilities(
        &mut self,
        random: &mut Random,
        image: &[u8],
        component: usize,
        p: [u32; 3],
    ) -> Vec<u8> {
        self.edit(
            random,
            image,
            Call::SetProbabilities,
            &format!("of {component} to {p:?}"),
            |image| library::set_probabilities(image, component, p),
            |image| reference::set_probabilities(image, component, p),
        )
    }

    pub fn set_customers(
        &mut self,
        random: &mut Random,
        image: &[u8],
        load: usize,
        customers: u32,
    ) -> Vec<u8> {
        self.edit(
            random,
            image,
            Call::SetCustomers,
            &format!("of {load} to {customers}"),
            |image| library::set_customers(image, load, customers),
            |image| reference::set_customers(image, load, customers),
        )
    }

    pub fn set_minutes(
        &mut self,
        random: &mut Random,
        image: &[u8],
        load: usize,
        minutes: u32,
    ) -> Vec<u8> {
        self.edit(
            random,
            image,
            Call::SetMinutes,
            &format!("of {load} to {minutes}"),
            |image| library::set_minutes(image, load, minutes),
            |image| reference::set_minutes(image, load, minutes),
        )
    }

    pub fn list_paths(&mut self, random: &mut Random, asked: Asked) {
        let shown = Shown::of(random, asked);
        let (paths, width) = shown.list_size();
        let need = paths * width;
        for room in [room(random, need), need] {
            self.ask(
                Question::ListPaths,
                shown.clone(),
                Lent::bytes(random, room),
                |shown, lent| shown.asked().list_paths(lent.room()),
                |shown, lent| reference::list_paths(shown.image(), shown.tree(), lent.room()),
            );
        }
    }

    pub fn path_bounds(&mut self, random: &mut Random, asked: Asked) {
        let shown = Shown::of(random, asked);
        let (paths, _) = shown.list_size();
        let slices = two_rooms(random, paths).map(|room| Lent::words(random, room));
        self.ask(
            Question::PathBounds,
            shown,
            slices,
            |shown, [lower, upper]| shown.asked().path_bounds(lower.room(), upper.room()),
            |shown, [lower, upper]| {
                let (image, tree) = (shown.image(), shown.tree());
                reference::path_bounds(image, tree, lower.room(), upper.room())
            },
        );
    }

    pub fn load_bounds(&mut self, random: &mut Random, asked: Asked, load: usize) {
        let shown = Shown::of(random, asked);
        let places = [(); 2].map(|_| Lent::words(random, 1));
        // The load stands beside its places, so that both are told where the two differ.
        self.ask(
            Question::LoadBounds,
            shown,
            (load, places),
            |shown, (load, [lower, upper])| {
                let (lower, upper) = (&mut lower.room()[0], &mut upper.room()[0]);
                shown.asked().load_bounds(*load, lower, upper)
            },
            |shown, (load, [lower, upper])| {
                let (lower, upper) = (&mut lower.room()[0], &mut upper.room()[0]);
                reference::load_bounds(shown.image(), shown.tree(), *load, lower, upper)
            },
        );
    }

    pub fn figures(&mut self, random: &mut Random, asked: Asked) {
        let both = self.ask(
            Question::Figures,
            Shown::of(random, asked),
            Lent::one(random, generate::figures),
            |shown, lent| shown.asked().figures(lent.first()),
            |shown, lent| reference::figures(shown.image(), shown.tree(), lent.first()),
        );
        if let Ok(stated) = both.answer {
            self.tally.count_figures(stated, &both.lent.held()[0]);
        }
    }

    pub fn loads_lost(&mut self, class: u8) {
        self.compare(
            Call::LoadsLost,
            &format!("in class {class}"),
            (),
            |()| library::loads_lost(class),
            |()| reference::loads_lost(class),
        );
    }

    pub fn refusal_word(&mut self, random: &mut Random, number: u8, room: usize) {
        self.compare(
            Call::RefusalWord,
            &format!("of {number} into {room} bytes"),
            Lent::bytes(random, room),
            |lent| library::refusal_word(number, lent.room()),
            |lent| reference::refusal_word(number, lent.room()),
        );
    }
}
