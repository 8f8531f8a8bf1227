//! Times the proved calls beside their port to plain Rust, on the same studies in the same run. Build with --release.
mod inputs;
mod timing;

use harness::library::{self, Chances, CLASS_PLACES, LONGEST_STUDY, REPORT_BYTES, STUDY_BYTES};
use harness::port;
use inputs::{Drawn, Input};
use std::cell::RefCell;
use timing::{side_by_side, Answer, Call, Times};

/// The load whose bounds are timed; every study has it.
const LOAD: usize = 0;

fn print_head(title: &str) {
    println!("\n{title}");
    println!(
        "{:<22} {:>6} {:>12} {:>6} {:>12} {:>12} {:>7}",
        "", "bytes", "joint states", "paths", "proved", "port", "ratio"
    );
}

/// A row: what was timed, beside the two times.
fn print_times(timed: String, times: Option<Times>) {
    let Some(Times { proved, port }) = times else {
        println!("{timed:<49} the two differ");
        return;
    };
    let ratio = proved / port;
    println!("{timed:<49} {proved:>12.2} {port:>12.2} {ratio:>7.2}");
}

/// A row for a study, beside the number of bytes that were read.
fn print_row_of(input: &Input, bytes: usize, times: Option<Times>) {
    let (joint_states, paths) = (input.joint_states(), input.paths());
    let timed = format!(
        "{:<22} {bytes:>6} {joint_states:>12} {paths:>6}",
        input.name
    );
    print_times(timed, times);
}

fn print_row(input: &Input, times: Option<Times>) {
    print_row_of(input, input.bytes.len(), times);
}

thread_local! {
    /// The slices that the library is lent for the bounds of classes beside a report; the port has its own.
    static SLICES: RefCell<[[u64; CLASS_PLACES]; 2]> = const { RefCell::new([[0; CLASS_PLACES]; 2]) };
}

/// Asks for a report beside slices that are not cleared between calls.
fn beside_slices(bytes: &[u8], text: &mut [u8]) -> Answer {
    SLICES.with_borrow_mut(|[lower, upper]| library::report(bytes, text, lower, upper))
}

fn report(input: &Input) {
    let calls: [Call<u8>; 2] = [beside_slices, port::report];
    print_row(input, side_by_side(calls, &input.bytes, REPORT_BYTES));
}

fn open(input: &Input) {
    let calls: [Call<u8>; 2] = [library::open, port::open];
    print_row(input, side_by_side(calls, &input.bytes, STUDY_BYTES));
}

fn write(input: &Input) {
    let calls: [Call<u8>; 2] = [library::write, port::write];
    print_row(input, side_by_side(calls, &input.image(), LONGEST_STUDY));
}

/// Asks for the bounds of all classes, the lower ones in the first half of the places.
fn in_halves(
    call: fn(&[u8], &mut [u64], &mut [u64]) -> Answer,
    image: &[u8],
    places: &mut [u64],
) -> Answer {
    let (lower, upper) = places.split_at_mut(CLASS_PLACES);
    call(image, lower, upper)
}

fn class_bounds(input: &Input) {
    let calls: [Call<u64>; 2] = [
        |image, places| in_halves(library::class_bounds, image, places),
        |image, places| in_halves(port::class_bounds, image, places),
    ];
    let room = 2 * CLASS_PLACES;
    print_row(input, side_by_side(calls, &input.image(), room));
}

/// A call for the bounds of all classes by a tree beside an image.
type DrawnCall = fn(&[u8], &[u8], &mut [u64], &mut [u64]) -> Answer;

/// Asks for the bounds of all classes by the tree that stands behind an image.
fn in_halves_by_tree(call: DrawnCall, given: &[u8], places: &mut [u64]) -> Answer {
    let (image, tree) = given.split_at(STUDY_BYTES);
    let (lower, upper) = places.split_at_mut(CLASS_PLACES);
    call(image, tree, lower, upper)
}

fn drawn_class_bounds(drawn: &Drawn) {
    let calls: [Call<u64>; 2] = [
        |given, places| in_halves_by_tree(library::drawn_class_bounds, given, places),
        |given, places| in_halves_by_tree(port::drawn_class_bounds, given, places),
    ];
    let times = side_by_side(calls, &drawn.given(), 2 * CLASS_PLACES);
    print_row_of(&drawn.study, drawn.tree.len(), times);
}

/// Asks for the bounds of a load, the lower one in the first of two places.
fn in_two_places(
    call: fn(&[u8], usize, &mut u64, &mut u64) -> Answer,
    image: &[u8],
    places: &mut [u64],
) -> Answer {
    let (lower, upper) = places.split_at_mut(1);
    call(image, LOAD, &mut lower[0], &mut upper[0])
}

fn load_bounds(input: &Input) {
    let calls: [Call<u64>; 2] = [
        |image, places| in_two_places(library::load_bounds, image, places),
        |image, places| in_two_places(port::load_bounds, image, places),
    ];
    print_row(input, side_by_side(calls, &input.image(), 2));
}

/// Asks for the chances at each of the given rates and hours.
fn for_each_rate(
    call: fn(u32, u32, &mut Chances) -> Answer,
    given: &[u8],
    places: &mut [Chances],
) -> Answer {
    let word = |bytes: &[u8]| u32::from_le_bytes(bytes.try_into().expect("four bytes"));
    let pairs = given.chunks_exact(inputs::RATE_BYTES);
    for (pair, chances) in pairs.zip(places) {
        let (fit, hours) = pair.split_at(inputs::RATE_BYTES / 2);
        call(word(fit), word(hours), chances)?;
    }
    Ok(0)
}

fn survival(rates: &[u8]) {
    let calls: [Call<Chances>; 2] = [
        |given, places| for_each_rate(library::survival, given, places),
        |given, places| for_each_rate(port::survival, given, places),
    ];
    let count = rates.len() / inputs::RATE_BYTES;
    print_times(
        format!("{count} rates and hours"),
        side_by_side(calls, rates, count),
    );
}

fn main() {
    println!(
        "Microseconds for one call: the median of {} batches, taken in turn.",
        timing::BATCHES
    );
    println!(
        "What is lent is not cleared between calls; each call clears the buffers it works on."
    );
    let studies = inputs::studies();
    print_head("Reports");
    studies.iter().for_each(report);
    print_head("Opening, which puts the inputs of gates in order");
    studies.iter().for_each(open);
    print_head("Writing");
    studies.iter().for_each(write);
    print_head("Bounds of all classes");
    studies.iter().for_each(class_bounds);
    print_head("Bounds of all classes by a drawn tree of so many bytes; the heaviest study's is the deepest");
    inputs::trees().iter().for_each(drawn_class_bounds);
    print_head("Bounds of a load");
    studies.iter().for_each(load_bounds);
    print_head("Chances of surviving, all of these in turn");
    survival(&inputs::rates());
    print_head("Growth of reports: two-state components, four loads on voting gates");
    inputs::growing().iter().for_each(report);
}
