//! The library's calls over lent bytes, in the same form: a count or a refusal, and nothing lent touched where refused. A call that takes a tree goes
//! by the gates where it is given none.
use super::bounds::{bounded_paths, class_bounds as by_class, load_bounds as of_load, Bounds};
use super::figures::figures as figures_of;
use super::image::{self, IMAGE_BYTES};
use super::losses::{Losses, Meaning};
use super::opening;
use super::paths::paths;
use super::refusals::*;
use super::report::report as report_of;
use super::study::*;
use super::writing;
use crate::library::Figures as LentFigures;

type Answer = Result<usize, u8>;

/// The study of an image, or 16.
fn sound(image: &[u8]) -> Result<Study, u8> {
    image::read(image).ok_or(UNSOUND)
}

/// The image anew: what stands behind it stays.
fn put(study: &Study, image: &mut [u8]) {
    image[..IMAGE_BYTES].copy_from_slice(&image::write(study));
}

/// All of it at the front of a buffer, or nothing.
fn hand_over(whole: &[u8], buffer: &mut [u8]) -> Answer {
    unless(buffer.len() >= whole.len(), NO_ROOM)?;
    buffer[..whole.len()].copy_from_slice(whole);
    Ok(whole.len())
}

pub fn open(bytes: &[u8], image: &mut [u8]) -> Answer {
    let study = opening::open(bytes)?;
    unless(image.len() >= IMAGE_BYTES, NO_ROOM)?;
    put(&study, image);
    Ok(0)
}

pub fn set_probabilities(image: &mut [u8], component: usize, p: [u32; 3]) -> Answer {
    let mut study = sound(image)?;
    let edited = study.components.get_mut(component).ok_or(NO_ITEM)?;
    for state in 1..=3 {
        let there = state < usize::from(edited.states);
        unless(there || p[state - 1] == 0, NO_STATE)?;
    }
    unless(Component::failed_together(p) <= ONE, OVER_ONE)?;
    edited.failed = p;
    put(&study, image);
    Ok(0)
}

pub fn set_customers(image: &mut [u8], load: usize, customers: u32) -> Answer {
    let mut study = sound(image)?;
    let edited = study.loads.get_mut(load).ok_or(NO_ITEM)?;
    unless(customers <= MOST_CUSTOMERS, LOAD_SIZE)?;
    edited.customers = customers;
    put(&study, image);
    Ok(0)
}

pub fn set_minutes(image: &mut [u8], load: usize, minutes: u32) -> Answer {
    let mut study = sound(image)?;
    let edited = study.loads.get_mut(load).ok_or(NO_ITEM)?;
    unless(minutes <= MOST_MINUTES, LOAD_SIZE)?;
    edited.minutes = minutes;
    put(&study, image);
    Ok(0)
}

pub fn write(image: &[u8], bytes: &mut [u8]) -> Answer {
    hand_over(&writing::write(&sound(image)?), bytes)
}

pub fn list_paths(image: &[u8], tree: Option<&[u8]>, buffer: &mut [u8]) -> Answer {
    let study = sound(image)?;
    let list = paths(&Losses::of(&study, &Meaning::of(&study, tree)?));
    let entries: Vec<u8> = list.iter().flat_map(|path| path.entry()).collect();
    hand_over(&entries, buffer)?;
    Ok(list.len())
}

pub fn path_bounds(
    image: &[u8],
    tree: Option<&[u8]>,
    lower: &mut [u64],
    upper: &mut [u64],
) -> Answer {
    let study = sound(image)?;
    let list = bounded_paths(&study, &Meaning::of(&study, tree)?);
    unless(lower.len().min(upper.len()) >= list.len(), NO_ROOM)?;
    for (k, (_, bounds)) in list.iter().enumerate() {
        lower[k] = bounds.lower;
        upper[k] = bounds.upper;
    }
    Ok(list.len())
}

/// The bounds of all classes, each at its place, or nothing.
fn fill_classes(study: &Study, meaning: &Meaning, lower: &mut [u64], upper: &mut [u64]) -> Answer {
    unless(lower.len().min(upper.len()) >= 256, NO_ROOM)?;
    let occurring = by_class(&bounded_paths(study, meaning));
    for class in 0..=255u8 {
        let none = Bounds { lower: 0, upper: 0 };
        let bounds = occurring.get(&class).unwrap_or(&none);
        lower[usize::from(class)] = bounds.lower;
        upper[usize::from(class)] = bounds.upper;
    }
    Ok(0)
}

pub fn class_bounds(
    image: &[u8],
    tree: Option<&[u8]>,
    lower: &mut [u64],
    upper: &mut [u64],
) -> Answer {
    let study = sound(image)?;
    fill_classes(&study, &Meaning::of(&study, tree)?, lower, upper)
}

pub fn load_bounds(
    image: &[u8],
    tree: Option<&[u8]>,
    load: usize,
    lower: &mut u64,
    upper: &mut u64,
) -> Answer {
    let study = sound(image)?;
    unless(load < study.loads.len(), NO_ITEM)?;
    let meaning = Meaning::of(&study, tree)?;
    let bounds = of_load(&bounded_paths(&study, &meaning), load);
    *lower = bounds.lower;
    *upper = bounds.upper;
    Ok(0)
}

pub fn figures(image: &[u8], tree: Option<&[u8]>, lent: &mut LentFigures) -> Answer {
    let study = sound(image)?;
    let meaning = Meaning::of(&study, tree)?;
    let given = figures_of(&study, &bounded_paths(&study, &meaning))?;
    *lent = LentFigures {
        saifi: given.saifi,
        saidi: given.saidi,
        caidi: given.caidi.unwrap_or(lent.caidi),
        maifi: given.maifi,
    };
    Ok(3 + usize::from(given.caidi.is_some()))
}

pub fn loads_lost(class: u8) -> Answer {
    Ok((0..8).filter(|load| class & (1 << load) != 0).count())
}

/// A study that does not open has no classes: the slices are left as they are, however short.
pub fn report(bytes: &[u8], text: &mut [u8], lower: &mut [u64], upper: &mut [u64]) -> Answer {
    let whole = report_of(bytes);
    unless(text.len() >= whole.len(), NO_ROOM)?;
    if let Ok(study) = opening::open(bytes) {
        fill_classes(&study, &Meaning::Gates, lower, upper)?;
    }
    hand_over(whole.as_bytes(), text)
}

pub fn refusal_word(number: u8, text: &mut [u8]) -> Answer {
    hand_over(word(number).as_bytes(), text)
}
