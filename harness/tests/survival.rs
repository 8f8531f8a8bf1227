//! The judge of the chance of surviving, on values whose digits are published: e^-1 = 0.36787944117.., e^-20 = 0.00000000206115.., and what follows
//! from both for the bounds that the library gives.
use harness::library::{self, Chances, STUDY_BYTES};
use harness::reference::survival::{broken, exponent, is_lower, is_upper, ONE};
use harness::studies::{from_hexadecimal, CASE_A};

/// The largest number of units that is a lower bound, the smallest that is an upper one.
fn assert_between(exponent: u64, lower: u64, upper: u64) {
    assert!(is_lower(exponent, lower) && !is_lower(exponent, lower + 1));
    assert!(is_upper(exponent, upper) && !is_upper(exponent, upper - 1));
}

#[test]
fn certain_without_an_exponent() {
    assert_between(0, ONE, ONE);
}

#[test]
fn a_unit() {
    assert_between(1, ONE - 1, ONE);
}

#[test]
fn e_to_minus_one() {
    assert_between(ONE, 367_879_441, 367_879_442);
}

#[test]
fn e_to_minus_twenty() {
    assert_between(20 * ONE, 2, 3);
}

#[test]
fn a_year_at_one_fit() {
    // 1 - 0.00000876 + 0.00000876² / 2 - ..
    assert_between(8_760, 999_991_240, 999_991_241);
}

#[test]
fn only_23() {
    assert_eq!(exponent(4_000_000_000, 5), Ok(20 * ONE));
    assert_eq!(exponent(92_739, 215_659), Err(23));
    assert_eq!(exponent(u32::MAX, u32::MAX), Err(23));
}

/// Bounds of surviving, then those of failure.
fn chances([lower, upper, failure_lower, failure_upper]: [u64; 4]) -> Chances {
    Chances {
        survival: [lower, upper].into(),
        failure: [failure_lower, failure_upper].into(),
    }
}

#[test]
fn what_is_promised() {
    let kept = [
        367_879_440,
        367_879_450,
        ONE - 367_879_450,
        ONE - 367_879_440,
    ];
    assert_eq!(broken(ONE, chances(kept)), None);
    let [lower, upper, failure_lower, failure_upper] = kept;
    for (wrong, what) in [
        (
            [lower + 2, upper, failure_lower, failure_upper - 2],
            "the lower bound is above",
        ),
        (
            [lower, lower + 1, failure_upper - 1, failure_upper],
            "the upper bound is below",
        ),
        (
            [lower, lower + 65, failure_upper - 65, failure_upper],
            "too far apart",
        ),
        (
            [lower, upper, failure_upper, failure_lower],
            "failure's lower bound",
        ),
        (
            [lower, upper, failure_lower, failure_upper + 1],
            "failure's upper bound",
        ),
        (
            [upper, lower, failure_upper, failure_lower],
            "not in order from 0 to one",
        ),
        (
            [lower, ONE + 1, 0, failure_upper],
            "not in order from 0 to one",
        ),
    ] {
        assert_eq!(broken(ONE, chances(wrong)), Some(what), "{wrong:?}");
    }
    let uncertain = broken(0, chances([ONE - 1, ONE, 0, 1]));
    assert_eq!(uncertain, Some("an exponent of 0 is certain"));
}

#[test]
fn the_library_keeps_it() {
    for (fit, hours) in [
        (0, 8_760),
        (1, 1),
        (1_000_000_000, 1),
        (4_000_000_000, 5),
        (1, 8_760),
    ] {
        let mut given = Chances::default();
        assert_eq!(library::survival(fit, hours, &mut given), Ok(0));
        assert_eq!(broken(u64::from(fit) * u64::from(hours), given), None);
    }
}

/// Case A with the chance of failure of 1,000 FIT over a year for component 0. Its load is lost at 8,721,747 + 991,278,253 × 0.2, which ends in .6.
#[test]
fn from_a_rate_to_a_study() {
    let mut given = Chances::default();
    assert_eq!(library::survival(1000, 8_760, &mut given), Ok(0));
    let due = chances([991_278_253, 991_278_263, 8_721_737, 8_721_747]);
    assert_eq!(given, due);
    let mut study = [0; STUDY_BYTES];
    assert_eq!(library::open(&from_hexadecimal(CASE_A), &mut study), Ok(0));
    let failed = u32::try_from(given.failure.upper).expect("at most one");
    let edited = library::set_probabilities(&mut study, 0, [failed, 0, 0]);
    assert_eq!(edited, Ok(0));
    let [mut lower, mut upper] = [0; 2];
    assert_eq!(
        library::load_bounds(&study, 0, &mut lower, &mut upper),
        Ok(0)
    );
    assert_eq!([lower, upper], [206_977_397, 206_977_398]);
}
