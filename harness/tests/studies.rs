//! The studies in the folder `studies` have the reports that stand beside them, under both implementations and the port, and the trees beside them
//! mean what their gates mean.
use harness::asked::Asked;
use harness::library::{self, Answer, CLASS_PLACES, STUDY_BYTES};
use harness::port;
use harness::reference;
use harness::studies;

/// The library's report. The bounds of classes beside it are those which the call for them writes; slices of a study that does not open are left.
fn report_beside_classes(bytes: &[u8], text: &mut [u8]) -> Answer<usize> {
    let [mut found, mut due] = [[[u64::MAX; CLASS_PLACES]; 2]; 2];
    let [lower, upper] = &mut found;
    let answer = library::report(bytes, text, lower, upper);
    let mut image = [0; STUDY_BYTES];
    if library::open(bytes, &mut image).is_ok() {
        let [lower, upper] = &mut due;
        assert_eq!(library::class_bounds(&image, lower, upper), Ok(0));
    }
    assert_eq!(found, due);
    answer
}

#[test]
fn studies_have_their_reports() {
    let all = studies::all();
    assert!(all.len() >= 16, "{} studies", all.len());
    for study in all {
        let due = study.report.as_bytes();
        let second = reference::report::report(&study.bytes);
        assert!(second.as_bytes() == due, "{}", study.name);
        for report in [report_beside_classes, port::report] {
            let mut text = vec![0; due.len()];
            assert_eq!(report(&study.bytes, &mut text), Ok(due.len()));
            assert!(text == due, "{}", study.name);
        }
    }
}

#[test]
fn trees_mean_what_the_gates_mean() {
    let mut trees = 0;
    for study in studies::all() {
        let Some(tree) = study.tree else { continue };
        let mut image = [0; STUDY_BYTES];
        assert_eq!(library::open(&study.bytes, &mut image), Ok(0));
        let [by_gates, by_tree] = [None, Some(&tree[..])].map(|tree| {
            let image = &image;
            Asked { image, tree }.everything()
        });
        assert!(by_tree == by_gates, "{}", study.name);
        trees += 1;
    }
    assert!(trees >= 3 && trees == studies::files("tree").len());
}
