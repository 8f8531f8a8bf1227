//! The report of a study's bytes, composed in a buffer of its own and then copied.
use super::bounds::{path_bound, DOWN, UP};
use super::figures::{figures_of, Enclosure};
use super::model::{Model, Probabilities};
use super::opening::open;
use super::paths::{count_paths, list_paths, BLANK};
use super::study::*;
use super::text::Text;
use super::totals::{class_totals, load_totals, Losses, CLASS_PLACES};

/// Room for the longest list: 4,096 entries of 13 bytes.
const LIST_BYTES: usize = 53_248;

/// The list of a model's paths.
struct List {
    bytes: [u8; LIST_BYTES],
    paths: usize,
    width: usize,
}

impl List {
    fn of(model: &Model) -> List {
        let (counts, block) = (model.counts(), model.block());
        let mut list = List {
            bytes: [0; LIST_BYTES],
            paths: count_paths(counts, block),
            width: counts.len() + 1,
        };
        list_paths(counts, block, &mut list.bytes);
        list
    }

    fn entries(&self) -> &[u8] {
        &self.bytes[..self.paths * self.width]
    }
}

fn word(refusal: u8) -> &'static [u8] {
    match refusal {
        1 => b"short",
        2 => b"counts",
        3 => b"stray bit",
        4 => b"states",
        5 => b"no state",
        6 => b"over one",
        7 => b"too wide",
        8 => b"inputs",
        9 => b"no component",
        10 => b"mask",
        11 => b"gate ahead",
        12 => b"threshold",
        13 => b"no gate",
        14 => b"load size",
        15 => b"left over",
        16 => b"unsound",
        17 => b"no item",
        18 => b"no room",
        _ => b"no customers",
    }
}

fn write_refusal(text: &mut Text, refusal: u8) {
    text.push(b"REFUSED ");
    text.number(u64::from(refusal));
    text.push(b" ");
    text.push(word(refusal));
    text.push(b"\n");
}

fn write_paths(text: &mut Text, probabilities: &Probabilities, list: &List) {
    text.push(b"PATHS ");
    text.number(list.paths as u64);
    text.push(b"\n");
    for entry in list.entries().chunks_exact(list.width) {
        let (class, marks) = entry.split_last().expect("an entry ends with its class");
        text.push(b"P ");
        for &mark in marks {
            text.push(&[if mark == BLANK { b'-' } else { b'0' + mark }]);
        }
        text.push(b" ");
        text.number(u64::from(*class));
        text.bounds(
            path_bound(DOWN, probabilities, marks),
            path_bound(UP, probabilities, marks),
        );
    }
}

/// The classes that occur: which these are is not told by bounds, since a path may have probability 0.
fn write_classes(text: &mut Text, model: &Model, list: &List) {
    let mut occurs = [false; CLASS_PLACES];
    for entry in list.entries().chunks_exact(list.width) {
        occurs[usize::from(entry[list.width - 1])] = true;
    }
    let mut lower = [0; CLASS_PLACES];
    let mut upper = [0; CLASS_PLACES];
    class_totals(model, &mut lower, &mut upper);
    for class in (0..CLASS_PLACES).filter(|&class| occurs[class]) {
        text.push(b"K ");
        text.number(class as u64);
        text.bounds(lower[class], upper[class]);
    }
}

fn write_figure(text: &mut Text, name: &[u8], figure: &Enclosure) {
    text.push(name);
    text.bounds(figure.lower, figure.upper);
}

fn write_loads(text: &mut Text, model: &Model, loads: &[Load]) {
    let Losses { lower, upper } = load_totals(model);
    for j in 0..loads.len() {
        text.push(b"L ");
        text.number(j as u64);
        text.bounds(lower[j], upper[j]);
    }
    match figures_of(&lower, &upper, loads) {
        None => text.push(b"INDICES 19\n"),
        Some(figures) => {
            write_figure(text, b"SAIFI", &figures.saifi);
            write_figure(text, b"SAIDI", &figures.saidi);
            match figures.caidi {
                Some(caidi) => write_figure(text, b"CAIDI", &caidi),
                None => text.push(b"CAIDI none\n"),
            }
            write_figure(text, b"MAIFI", &figures.maifi);
        }
    }
}

fn write_study(text: &mut Text, study: &Study) {
    let model = Model::of(study);
    let list = List::of(&model);
    write_paths(text, &model.probabilities, &list);
    write_classes(text, &model, &list);
    write_loads(text, &model, study.loads());
}

/// The number of bytes of the report, which fills the front of the lent text; 18 where it has no room for it.
pub fn report(bytes: &[u8], lent: &mut [u8]) -> Result<usize, u8> {
    let mut text = Text::new();
    match open(bytes) {
        Ok(study) => write_study(&mut text, &study),
        Err(refusal) => write_refusal(&mut text, refusal),
    }
    text.hand_over(lent)
}
