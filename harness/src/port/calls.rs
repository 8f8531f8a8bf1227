//! The calls over lent space, where an opened study is held as its image.
use super::image::{read_image, write_image, IMAGE_BYTES};
use super::model::Model;
use super::opening;
use super::soundness::is_sound;
use super::study::Study;
use super::totals::{class_totals, load_totals, CLASS_PLACES};
use super::writing::study_bytes;

/// The study of an image, or 16.
fn sound(image: &[u8]) -> Result<Study, u8> {
    let study = read_image(image);
    match is_sound(&study) {
        true => Ok(study),
        false => Err(16),
    }
}

/// The places of a slice for class bounds, or 18.
fn class_places(slice: &mut [u64]) -> Result<&mut [u64; CLASS_PLACES], u8> {
    slice.first_chunk_mut().ok_or(18)
}

/// Opens the bytes of a study and writes its image. Refused by 1 to 15, then 18.
pub fn open(bytes: &[u8], image: &mut [u8]) -> Result<usize, u8> {
    let study = opening::open(bytes)?;
    let places = image.get_mut(..IMAGE_BYTES).ok_or(18)?;
    write_image(&study, places);
    Ok(0)
}

/// Writes a study out as bytes, and answers how many they are. Refused by 16, 18.
pub fn write(image: &[u8], bytes: &mut [u8]) -> Result<usize, u8> {
    study_bytes(&sound(image)?).hand_over(bytes)
}

/// Writes the bounds of each class at places 0 to 255. Refused by 16, 18.
pub fn class_bounds(image: &[u8], lower: &mut [u64], upper: &mut [u64]) -> Result<usize, u8> {
    let study = sound(image)?;
    let (lower, upper) = (class_places(lower)?, class_places(upper)?);
    class_totals(&Model::of(&study), lower, upper);
    Ok(0)
}

/// The same by a drawn tree. Refused by 16, 20 to 22, 18.
pub fn drawn_class_bounds(
    image: &[u8],
    tree: &[u8],
    lower: &mut [u64],
    upper: &mut [u64],
) -> Result<usize, u8> {
    let model = Model::drawn(&sound(image)?, tree)?;
    let (lower, upper) = (class_places(lower)?, class_places(upper)?);
    class_totals(&model, lower, upper);
    Ok(0)
}

/// Writes the bounds for the loss of a load. Refused by 16, 17.
pub fn load_bounds(
    image: &[u8],
    load: usize,
    lower: &mut u64,
    upper: &mut u64,
) -> Result<usize, u8> {
    let study = sound(image)?;
    if load >= usize::from(study.loads) {
        return Err(17);
    }
    let losses = load_totals(&Model::of(&study));
    *lower = losses.lower[load];
    *upper = losses.upper[load];
    Ok(0)
}
