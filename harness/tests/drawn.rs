//! Drawn trees, with answers worked out by hand: what a tree means, by which number a wrong one is refused, and in which order.
use harness::asked::Asked;
use harness::generate::{self, drawn, Random, Style};
use harness::library::{self, Answer, Figures, CLASS_PLACES, LIST_BYTES, STUDY_BYTES};
use harness::reference::{calls as reference, opening};
use harness::studies::{from_hexadecimal, to_hexadecimal, CASE_A};

/// What lent bytes and places hold before a call.
const LENT_BYTE: u8 = 0xA5;
const LENT_NUMBER: u64 = 7;

/// Case A's load, lost only when both components have failed: component 1 is asked first, and component 0 where that has failed.
const BOTH: &str = "01 FF00 00 FF00 FF01";

fn image_of(study: &str) -> Vec<u8> {
    let mut image = vec![0; STUDY_BYTES];
    let answer = library::open(&from_hexadecimal(study), &mut image);
    assert_eq!(answer, Ok(0), "{study}");
    image
}

/// What a call answers and leaves in the lent places, on which both implementations must agree.
fn agreed<P: Clone + PartialEq + std::fmt::Debug>(
    places: P,
    proved: impl Fn(&mut P) -> Answer<usize>,
    second: impl Fn(&mut P) -> Answer<usize>,
) -> (Answer<usize>, P) {
    let (mut ours, mut theirs) = (places.clone(), places);
    let both = [proved(&mut ours), second(&mut theirs)];
    assert_eq!((both[0], &ours), (both[1], &theirs));
    (both[0], ours)
}

fn list(image: &[u8], tree: &str, room: usize) -> (Answer<usize>, Vec<u8>) {
    let tree = &from_hexadecimal(tree);
    agreed(
        vec![LENT_BYTE; room],
        |list| library::drawn_list_paths(image, tree, list),
        |list| reference::list_paths(image, Some(tree), list),
    )
}

type Slices = [Vec<u64>; 2];

fn path_bounds(image: &[u8], tree: &str, rooms: [usize; 2]) -> (Answer<usize>, Slices) {
    let tree = &from_hexadecimal(tree);
    agreed(
        rooms.map(|room| vec![LENT_NUMBER; room]),
        |[lower, upper]| library::drawn_path_bounds(image, tree, lower, upper),
        |[lower, upper]| reference::path_bounds(image, Some(tree), lower, upper),
    )
}

fn class_bounds(image: &[u8], tree: &str, rooms: [usize; 2]) -> (Answer<usize>, Slices) {
    let tree = &from_hexadecimal(tree);
    agreed(
        rooms.map(|room| vec![LENT_NUMBER; room]),
        |[lower, upper]| library::drawn_class_bounds(image, tree, lower, upper),
        |[lower, upper]| reference::class_bounds(image, Some(tree), lower, upper),
    )
}

fn load_bounds(image: &[u8], tree: &str, load: usize) -> (Answer<usize>, [u64; 2]) {
    let tree = &from_hexadecimal(tree);
    agreed(
        [LENT_NUMBER; 2],
        |[lower, upper]| library::drawn_load_bounds(image, tree, load, lower, upper),
        |[lower, upper]| reference::load_bounds(image, Some(tree), load, lower, upper),
    )
}

/// What the numbers for the figures hold before a call.
fn lent_figures() -> Figures {
    generate::figures(&mut Random::new(0))
}

fn figures(image: &[u8], tree: &str) -> (Answer<usize>, Figures) {
    let tree = &from_hexadecimal(tree);
    agreed(
        lent_figures(),
        |lent| library::drawn_figures(image, tree, lent),
        |lent| reference::figures(image, Some(tree), lent),
    )
}

/// By which number a tree beside case A is refused.
fn refusal(tree: &str) -> Answer<usize> {
    list(&image_of(CASE_A), tree, 100).0
}

#[test]
fn case_a_from_component_1() {
    let image = image_of(CASE_A);
    let (paths, entries) = list(&image, "01 00 FF00 FF01 FF01", 10);
    assert_eq!(paths, Ok(3));
    assert_eq!(entries, [0, 0, 0, 0, 1, 1, 1, 255, 1, LENT_BYTE]);
}

#[test]
fn a_tree_replaces_the_gates() {
    let image = image_of(CASE_A);
    let (paths, entries) = list(&image, BOTH, 10);
    assert_eq!(paths, Ok(3));
    assert_eq!(entries, [0, 255, 0, 1, 0, 0, 1, 1, 1, LENT_BYTE]);
    let bounds = vec![900_000_000, 80_000_000, 20_000_000, LENT_NUMBER];
    let due = [bounds[..3].to_vec(), bounds];
    assert_eq!(path_bounds(&image, BOTH, [3, 4]), (Ok(3), due));
    let (answer, [lower, upper]) = class_bounds(&image, BOTH, [CLASS_PLACES; 2]);
    assert_eq!((answer, &lower), (Ok(0), &upper));
    assert_eq!(lower[..3], [980_000_000, 20_000_000, 0]);
    assert_eq!(load_bounds(&image, BOTH, 0), (Ok(0), [20_000_000; 2]));
    let due = Figures {
        saifi: [20_000_000; 2].into(),
        saidi: [1_200_000_000; 2].into(),
        caidi: [60; 2].into(),
        maifi: [0; 2].into(),
    };
    assert_eq!(figures(&image, BOTH), (Ok(4), due));
}

#[test]
fn a_leaf_alone() {
    let image = image_of(CASE_A);
    let (paths, entries) = list(&image, "FF01", 3);
    assert_eq!((paths, entries), (Ok(1), vec![255, 255, 1]));
    assert_eq!(load_bounds(&image, "FF01", 0), (Ok(0), [1_000_000_000; 2]));
}

#[test]
fn needless_questions_are_blank() {
    // On each branch component 1 is asked in vain, and component 0 leads to the same below both of its states.
    let tree = "00 01 FF00 FF00 01 FF00 FF00";
    let (paths, entries) = list(&image_of(CASE_A), tree, 3);
    assert_eq!((paths, entries), (Ok(1), vec![255, 255, 0]));
}

#[test]
fn loads_without_a_loss_gate_are_lost_by_a_leaf() {
    let never = "01 01 01  00  02 01 0002  00";
    let image = image_of(never);
    let (paths, entries) = list(&image, "00 FF00 FF01", 4);
    assert_eq!((paths, entries), (Ok(2), vec![0, 0, 1, 1]));
}

#[test]
fn a_component_may_stand_on_sister_branches() {
    assert_eq!(refusal("00 01 FF00 FF01 01 FF01 FF01"), Ok(3));
    assert_eq!(refusal("00 01 FF00 00 FF01 FF01 FF01"), Err(20));
    assert_eq!(refusal("00 00"), Err(20));
}

#[test]
fn components_that_the_study_lacks() {
    for node in ["02", "0B", "0C", "0D", "FE"] {
        assert_eq!(refusal(node), Err(20), "{node}");
        assert_eq!(refusal(&format!("00 FF00 {node}")), Err(20), "{node}");
    }
}

#[test]
fn ends_inside_the_tree_and_behind_it() {
    for tree in [
        "",
        "FF",
        "00",
        "00 FF",
        "00 FF00",
        "00 FF00 01 FF01",
        "00 FF00 FF",
    ] {
        assert_eq!(refusal(tree), Err(21), "{tree}");
    }
    for tree in [
        "FF00 00",
        "FF00 FF",
        "FF00 FF00",
        "00 FF00 FF01 FF",
        "FF01 FE",
    ] {
        assert_eq!(refusal(tree), Err(21), "{tree}");
    }
}

#[test]
fn classes_of_loads_that_the_study_lacks() {
    for leaf in ["FF02", "FF03", "FF80", "FFFF"] {
        assert_eq!(refusal(leaf), Err(22), "{leaf}");
        // What follows the tree is judged last, and what stands behind a leaf later than the leaf.
        assert_eq!(refusal(&format!("{leaf} 00")), Err(22), "{leaf}");
        assert_eq!(refusal(&format!("00 {leaf} 00")), Err(22), "{leaf}");
    }
    assert_eq!(refusal("00 00 FF02"), Err(20));
    // With eight loads every class is one of theirs.
    let eight = image_of(&format!("01 01 08  00  02 01 0002 {}", "00 ".repeat(8)));
    let (paths, entries) = list(&eight, "00 FFFF FF80", 4);
    assert_eq!((paths, entries), (Ok(2), vec![0, 255, 1, 128]));
}

/// Each call beside a tree, with too little room, for load 1, which case A lacks; that for the figures last.
fn refused_by(image: &[u8], tree: &str) -> [Answer<usize>; 5] {
    let (listed, buffer) = list(image, tree, 8);
    let (bounded, paths) = path_bounds(image, tree, [2, 3]);
    let (totalled, classes) = class_bounds(image, tree, [CLASS_PLACES, CLASS_PLACES - 1]);
    let (lost, load) = load_bounds(image, tree, 1);
    let (stated, given) = figures(image, tree);
    assert!(buffer.iter().all(|&byte| byte == LENT_BYTE));
    let slices = [&paths[..], &classes[..], &[load.to_vec()]].concat();
    assert!(slices.iter().flatten().all(|&n| n == LENT_NUMBER));
    assert!(stated.is_ok() || given == lent_figures());
    [listed, bounded, totalled, lost, stated]
}

#[test]
fn refusals_in_their_order() {
    let image = image_of(CASE_A);
    for (tree, number) in [("02", 20), ("", 21), ("FF02", 22)] {
        let by = Err(number);
        assert_eq!(refused_by(&image, tree), [by, by, by, Err(17), by]);
        assert_eq!(load_bounds(&image, tree, 0), (by, [LENT_NUMBER; 2]));
        // The gates must be sound, though the tree replaces them.
        let mut unsound = image.clone();
        unsound[159] = 3;
        assert_eq!(refused_by(&unsound, tree), [Err(16); 5]);
    }
    // Figures need no room that could be too little.
    let by = Err(18);
    assert_eq!(refused_by(&image, BOTH), [by, by, by, Err(17), Ok(4)]);
}

#[test]
fn no_customers_come_last() {
    let mut image = image_of(CASE_A);
    assert_eq!(library::set_customers(&mut image, 0, 0), Ok(0));
    for (tree, number) in [("02", 20), ("", 21), ("FF02", 22), (BOTH, 19)] {
        assert_eq!(figures(&image, tree), (Err(number), lent_figures()));
    }
}

/// The deepest tree of a study with 4,096 joint states has a leaf for each of them behind so many nodes, and means what the gates mean.
fn assert_deepest(study: &str, nodes: usize, paths: usize) {
    let image = &image_of(study);
    let opened = opening::open(&from_hexadecimal(study)).expect("a sound study");
    let tree = drawn(&mut Random::new(4), &opened, Style::Deepest);
    assert_eq!(tree.len(), nodes + 2 * 4096);
    let [by_gates, by_tree] =
        [None, Some(&tree[..])].map(|tree| Asked { image, tree }.everything());
    assert!(by_tree == by_gates);
    let text = to_hexadecimal(&tree);
    assert_eq!(list(image, &text, LIST_BYTES).0, Ok(paths));
    assert_eq!(class_bounds(image, &text, [CLASS_PLACES; 2]).0, Ok(0));
    for size in [0, 1, tree.len() / 2, tree.len() - 1] {
        let mut list = [];
        let cut = library::drawn_list_paths(image, &tree[..size], &mut list);
        assert_eq!(cut, Err(21));
    }
}

#[test]
fn twelve_components_of_two_states() {
    assert_deepest(include_str!("../../studies/widest.hex"), 4095, 4096);
}

#[test]
fn six_components_of_four_states() {
    assert_deepest(include_str!("../../studies/heaviest.hex"), 1365, 3910);
}
