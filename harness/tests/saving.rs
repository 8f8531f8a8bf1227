//! Opened studies written out as bytes: what is written, worked out by hand, and studies that save alike.
use harness::generate::{self, twins, Random};
use harness::library::{self, CLASS_PLACES, LONGEST_STUDY, REPORT_BYTES, STUDY_BYTES};
use harness::reference::calls as reference;
use harness::reference::image::read_in_any_order;
use harness::studies::{self, from_hexadecimal, to_hexadecimal, Written, CASE_A};

fn image_of(bytes: &[u8]) -> Vec<u8> {
    let mut image = vec![0; STUDY_BYTES];
    let answer = library::open(bytes, &mut image);
    assert_eq!(answer, Ok(0), "{}", to_hexadecimal(bytes));
    image
}

/// What an image is written to, on which both implementations must agree.
fn written(image: &[u8]) -> Vec<u8> {
    let both = [library::write, reference::write].map(|write| {
        let mut bytes = vec![0; LONGEST_STUDY];
        let size = write(image, &mut bytes).expect("room for any study");
        bytes.truncate(size);
        bytes
    });
    assert_eq!(both[0], both[1]);
    both[0].clone()
}

/// A study, given and written in hexadecimal.
fn assert_written(given: &str, due: &str) {
    let bytes = written(&image_of(&from_hexadecimal(given)));
    assert_eq!(bytes, from_hexadecimal(due), "{given}");
}

#[test]
fn case_a_is_written_as_given() {
    assert_written(CASE_A, CASE_A);
}

#[test]
fn edits_are_saved() {
    let mut image = image_of(&from_hexadecimal(CASE_A));
    assert_eq!(library::set_probabilities(&mut image, 1, [0; 3]), Ok(0));
    assert_eq!(library::set_customers(&mut image, 0, 250), Ok(0));
    let due = "02 01 01  02 00E1F505  00  02 02 0002 0102  07 00 FA000000 3C000000";
    assert_eq!(written(&image), from_hexadecimal(due));
    assert_eq!(library::set_customers(&mut image, 0, 0), Ok(0));
    assert_eq!(library::set_minutes(&mut image, 0, 0), Ok(0));
    let due = "02 01 01  02 00E1F505  00  02 02 0002 0102  01 00";
    assert_eq!(written(&image), from_hexadecimal(due));
}

#[test]
fn absent_values_are_not_written() {
    // Each field is given with the value that it has when absent; a loss gate of 0 is none of these.
    let full = "01 01 01  03 02 00000000  03 01 01 0002  07 00 00000000 00000000";
    assert_written(full, "01 01 01  00  02 01 0002  01 00");
    let never = "01 01 01  00  02 01 0002  06 00000000 00000000";
    assert_written(never, "01 01 01  00  02 01 0002  00");
    let lacking = "01 01 01  0F 04 00000000 01000000 00000000  02 01 0002  00";
    assert_written(lacking, "01 01 01  05 04 01000000  02 01 0002  00");
}

#[test]
fn inputs_are_written_in_order() {
    let front = "02 03 01  01 03  00";
    let falling = "02 04 0102 0102 0004 0002  02 01 0102  05 02 04 01 01 00 00  01 02";
    let mixed = "02 04 0102 0004 0102 0002  02 01 0102  05 02 04 01 00 01 00  01 02";
    let due = "02 04 0002 0004 0102 0102  02 01 0102  05 02 04 00 00 01 01  01 02";
    for given in [falling, mixed, due] {
        assert_written(&format!("{front}  {given}"), &format!("{front}  {due}"));
    }
}

#[test]
fn room_is_measured_exactly() {
    let image = image_of(&from_hexadecimal(CASE_A));
    for write in [library::write, reference::write] {
        let mut bytes = [0xA5; 30];
        assert_eq!(write(&image, &mut bytes[..28]), Err(18));
        assert_eq!(bytes, [0xA5; 30]);
        assert_eq!(write(&image, &mut bytes), Ok(29));
        assert_eq!(bytes[..29], from_hexadecimal(CASE_A));
        assert_eq!(bytes[29], 0xA5);
        assert_eq!(write(&image[..STUDY_BYTES - 1], &mut bytes), Err(16));
        assert_eq!(write(&image, &mut []), Err(18));
        assert_eq!(write(&[], &mut []), Err(16));
    }
}

/// Every call on an image, refused by 16.
fn assert_unsound(image: &[u8]) {
    let (bytes, places) = (&mut [7; LONGEST_STUDY], &mut [7; 256]);
    let (lower, upper) = places.split_at_mut(128);
    let (study, tree) = (&mut image.to_vec(), &[255, 0]);
    let held = generate::figures(&mut Random::new(0));
    let mut figures = held;
    let answers = [
        library::write(image, bytes),
        library::list_paths(image, bytes),
        library::path_bounds(image, lower, upper),
        library::class_bounds(image, lower, upper),
        library::load_bounds(image, 0, &mut lower[0], &mut upper[0]),
        library::figures(image, &mut figures),
        library::drawn_list_paths(image, tree, bytes),
        library::drawn_path_bounds(image, tree, lower, upper),
        library::drawn_class_bounds(image, tree, lower, upper),
        library::drawn_load_bounds(image, tree, 0, &mut lower[0], &mut upper[0]),
        library::drawn_figures(image, tree, &mut figures),
        library::set_probabilities(study, 0, [0; 3]),
        library::set_customers(study, 0, 1),
        library::set_minutes(study, 0, 1),
    ];
    assert_eq!(answers, [Err(16); 14]);
    assert_eq!((&study[..], figures), (image, held));
    assert_eq!((&*bytes, &*places), (&[7; LONGEST_STUDY], &[7; 256]));
}

#[test]
fn another_order_is_unsound() {
    let study = "02 03 01  01 03  00  02 03 0002 0004 0102  02 01 0102  04 02 00 01  01 02";
    let image = image_of(&from_hexadecimal(study));
    // Gate 0 stands at byte 159, its components from 161 on and its masks from 173 on; the gate inputs of gate 2 stand from 302 on.
    for [one, other] in [[161, 163], [173, 174], [302, 303]] {
        let mut altered = image.clone();
        altered.swap(one, other);
        assert!(read_in_any_order(&altered).is_some());
        assert_unsound(&altered);
    }
}

#[test]
fn studies_open_to_what_was_saved() {
    let mut longest = 0;
    for study in studies::all().into_iter().filter(Written::opens) {
        let image = image_of(&study.bytes);
        let bytes = written(&image);
        assert_eq!(image_of(&bytes), image, "{}", study.name);
        assert!(bytes.len() <= study.bytes.len(), "{}", study.name);
        longest = longest.max(bytes.len());
    }
    assert_eq!(longest, LONGEST_STUDY);
}

/// The report, and the bounds of classes beside it.
fn report_of(bytes: &[u8]) -> (Vec<u8>, [[u64; CLASS_PLACES]; 2]) {
    let (mut text, mut bounds) = (vec![0; REPORT_BYTES], [[0; CLASS_PLACES]; 2]);
    let [lower, upper] = &mut bounds;
    let size = library::report(bytes, &mut text, lower, upper).expect("room for any report");
    text.truncate(size);
    (text, bounds)
}

#[test]
fn studies_that_differ_in_order_save_alike() {
    let mut different = 0;
    for seed in 3_000_000..3_002_000 {
        let [study, twin] = twins(&mut Random::new(seed));
        let image = image_of(&study);
        assert_eq!(image_of(&twin), image, "seed {seed}");
        // A gate's truth, and with it every line of the report and every class, does not change by the order.
        assert_eq!(report_of(&study), report_of(&twin), "seed {seed}");
        assert!(written(&image).len() <= study.len(), "seed {seed}");
        different += usize::from(study != twin);
    }
    assert!(different >= 1000, "{different} pairs that differ");
}
