//! The port that the benchmark times must be right as well: its reports, images, written studies and bounds of classes by a drawn tree agree with the
//! second implementation's, and its bounds of classes and loads by gates and its chances of surviving with the library's.
use harness::generate::{self, Random};
use harness::library::{self, CLASS_PLACES, LONGEST_STUDY, REPORT_BYTES, STUDY_BYTES};
use harness::port;
use harness::reference::calls as reference;
use harness::reference::image;
use harness::reference::study::{Study, MOST_LOADS};
use harness::studies::to_hexadecimal;

/// What lent bytes and places hold before a call.
const LENT_BYTE: u8 = 0xA5;
const LENT_NUMBER: u64 = u64::MAX;

type Answer = Result<usize, u8>;
type Call = fn(&[u8], &mut [u8]) -> Answer;

/// What a call answers, and what it leaves in the lent bytes.
#[derive(PartialEq)]
struct Made {
    answer: Answer,
    lent: Vec<u8>,
}

/// Both made the same of the given bytes.
fn assert_same<M: PartialEq>([found, due]: &[M; 2], given: &[u8]) {
    assert!(found == due, "{}", to_hexadecimal(given));
}

/// What both calls make of the same bytes in as much room.
fn compare(calls: [Call; 2], given: &[u8], room: usize) -> Made {
    let made = calls.map(|call| {
        let mut lent = vec![LENT_BYTE; room];
        let answer = call(given, &mut lent);
        Made { answer, lent }
    });
    assert_same(&made, given);
    let [_, due] = made;
    due
}

/// The same with room for any, and with one byte too few.
fn compare_rooms(calls: [Call; 2], given: &[u8], most: usize) {
    if let Ok(size) = compare(calls, given, most).answer {
        compare(calls, given, size - 1);
    }
}

/// The second implementation's report. The port is lent no slices, so what these hold is not compared.
fn second_report(bytes: &[u8], text: &mut [u8]) -> Answer {
    let [mut lower, mut upper] = [[LENT_NUMBER; CLASS_PLACES]; 2];
    reference::report(bytes, text, &mut lower, &mut upper)
}

/// A call for bounds of classes.
type Bounding<'a> = &'a dyn Fn(&mut [u64], &mut [u64]) -> Answer;

/// What both calls for bounds of classes make of what is given, in slices with room enough, more and too little.
fn compare_classes(calls: [Bounding; 2], given: &[u8]) {
    let (enough, more, few) = (CLASS_PLACES, CLASS_PLACES + 1, CLASS_PLACES - 1);
    for rooms in [[enough, enough], [more, more], [few, enough], [enough, few]] {
        let made = calls.map(|call| {
            let [mut lower, mut upper] = rooms.map(|room| vec![LENT_NUMBER; room]);
            let answer = call(&mut lower, &mut upper);
            (answer, lower, upper)
        });
        assert_same(&made, given);
    }
}

/// Bounds of classes by a tree beside an image.
fn compare_drawn(image: &[u8], tree: &[u8]) {
    let calls: [Bounding; 2] = [
        &|lower, upper| port::drawn_class_bounds(image, tree, lower, upper),
        &|lower, upper| reference::class_bounds(image, Some(tree), lower, upper),
    ];
    compare_classes(calls, &[image, tree].concat());
}

fn compare_load(image: &[u8], load: usize) {
    let calls = [port::load_bounds, library::load_bounds];
    let made = calls.map(|call| {
        let [mut lower, mut upper] = [LENT_NUMBER; 2];
        let answer = call(image, load, &mut lower, &mut upper);
        (answer, lower, upper)
    });
    assert_same(&made, image);
}

/// All calls on an image, also for loads that it lacks.
fn compare_questions(image: &[u8]) {
    compare_rooms([port::write, reference::write], image, LONGEST_STUDY);
    let calls: [Bounding; 2] = [
        &|lower, upper| port::class_bounds(image, lower, upper),
        &|lower, upper| library::class_bounds(image, lower, upper),
    ];
    compare_classes(calls, image);
    for load in 0..=MOST_LOADS {
        compare_load(image, load);
    }
}

/// Trees beside an image, and beside one that is altered.
fn compare_trees(random: &mut Random, image: &[u8], study: &Study) {
    let altered = generate::altered(random, image);
    let trees = [generate::tree, generate::damaged_tree];
    for tree in trees.map(|draw| draw(random, study)) {
        compare_drawn(image, &tree);
        compare_drawn(&altered, &tree);
    }
}

#[test]
fn port_agrees() {
    for seed in 1_000_000..1_002_000 {
        let random = &mut Random::new(seed);
        let bytes = generate::input(random);
        compare_rooms([port::report, second_report], &bytes, REPORT_BYTES);
        compare([port::open, reference::open], &bytes, STUDY_BYTES - 1);
        let opened = compare([port::open, reference::open], &bytes, STUDY_BYTES);
        compare_questions(&opened.lent);
        if let Some(study) = image::read(&opened.lent) {
            for _ in 0..4 {
                compare_questions(&generate::altered(random, &opened.lent));
                compare_trees(random, &opened.lent, &study);
            }
        }
    }
}

/// Chances of surviving, in numbers that hold anything; what is answered is handed back.
fn compare_survival(random: &mut Random, fit: u32, hours: u32) -> Answer {
    let held = generate::chances(random);
    let made = [port::survival, library::survival].map(|call| {
        let mut chances = held;
        let answer = call(fit, hours, &mut chances);
        (answer, chances)
    });
    assert_same(&made, &[fit, hours].map(u32::to_le_bytes).concat());
    let [(answer, _), _] = made;
    answer
}

#[test]
fn port_survives() {
    let random = &mut Random::new(0);
    let mut far = 0;
    for _ in 0..100_000 {
        // Products of up to 35 bits, some of them too far.
        let bits = random.between(0, 29);
        let [fit, hours] = [random.word() >> bits, random.word() >> (29 - bits)];
        let answer = compare_survival(random, fit, hours);
        far += usize::from(answer == Err(23));
    }
    assert!((300..99_700).contains(&far), "{far} too far");
}
