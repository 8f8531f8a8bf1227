//! What must have been met for the comparison to say something, and what must not.
use crate::answers::Calls;
use crate::calls::CALLS;
use crate::tally::Tally;
use harness::reference::refusals::word;

/// Each answer of each call, each kind of figures, of order and of lent slices must be met this often, or the inputs say too little about it.
const OFTEN: usize = 300;

fn often(met: usize, what: &str) {
    assert!(met >= OFTEN, "{what}: met {met} times");
}

/// Each call was answered, and refused by each number of its row; and each refusal that has a word is in some row.
fn assert_calls_met(calls: &Calls) {
    for call in CALLS {
        let answers = calls.of(call);
        often(answers.given, &format!("{call}, answered"));
        for &number in call.refusals() {
            let refused = format!("{call}, refused by {number}");
            often(answers.refused_by(number), &refused);
        }
    }
    for number in (0..=255).filter(|&number| !word(number).is_empty()) {
        let given = CALLS.iter().any(|call| call.refusals().contains(&number));
        assert!(given, "{number} is in no call's row");
    }
}

/// No call was refused by a number that it cannot give.
pub fn assert_no_others(calls: &Calls) {
    for call in CALLS {
        let met = calls.of(call).numbers();
        let others: Vec<u8> = met.filter(|&number| !call.can_give(number)).collect();
        assert!(others.is_empty(), "{call} was refused by {others:?}");
    }
}

/// Whether the inputs met enough of what can happen.
pub fn assert_enough(tally: &Tally) {
    assert!(tally.sound * 3 >= tally.inputs, "too few sound studies");
    assert_calls_met(&tally.calls);
    often(tally.unstated, "without CAIDI");
    often(tally.mixed, "short and other loads");
    often(tally.given.least(), "inputs given out of order");
    often(tally.falling, "inputs given in falling order");
    often(tally.repeated.least(), "repeated inputs");
    often(tally.overvoted, "refusal 12 for repeats alone");
    often(tally.overvoted_images, "refusal 16 for repeats alone");
    often(tally.disordered.least(), "images out of order alone");
    often(tally.in_full.given, "full slices");
    for number in [16, 18] {
        let refused = format!("full slices, refused by {number}");
        often(tally.in_full.refused_by(number), &refused);
    }
    often(tally.reports.least(), "reports by what they are lent");
    often(tally.drawn_gates, "trees drawn from gates");
}
