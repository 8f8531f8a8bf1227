//! The worked examples and the places where opening is easily got wrong, with answers worked out by hand.
use harness::generate::{self, Random};
use harness::library::{self, Answer, Figures, CLASS_PLACES, STUDY_BYTES};
use harness::reference::{calls as reference, report};
use harness::studies::{from_hexadecimal, CASE_A};

/// Two components that fail at a third, and one load, which is lost when both fail.
const CASE_B: &str =
    "02 01 01  02 5543DE13  02 5543DE13  03 02 02 0002 0102  07 00 01000000 3C000000";

/// The report, on which both implementations must agree.
fn report_of(study: &str) -> String {
    let bytes = from_hexadecimal(study);
    let due = report::report(&bytes);
    let mut text = vec![0; due.len()];
    let [mut lower, mut upper] = [[0; CLASS_PLACES]; 2];
    let answer = library::report(&bytes, &mut text, &mut lower, &mut upper);
    assert_eq!(answer, Ok(due.len()), "{study}");
    assert_eq!(String::from_utf8_lossy(&text), due, "{study}");
    due
}

/// Lines of a report that start with a letter and a blank, without these.
fn lines(study: &str, letter: &str) -> Vec<String> {
    let report = report_of(study);
    let wanted = report.lines().filter_map(|line| line.strip_prefix(letter));
    wanted.map(str::to_string).collect()
}

fn image_of(study: &str) -> Vec<u8> {
    let mut image = vec![0; STUDY_BYTES];
    let answer = library::open(&from_hexadecimal(study), &mut image);
    assert_eq!(answer, Ok(0), "{study}");
    image
}

// The second implementation by the gates, as the library has it.

fn second_list(image: &[u8], list: &mut [u8]) -> Answer<usize> {
    reference::list_paths(image, None, list)
}

fn second_figures(image: &[u8], figures: &mut Figures) -> Answer<usize> {
    reference::figures(image, None, figures)
}

#[test]
fn a_two_in_series() {
    let due = "PATHS 3\nP 00 0 720000000 720000000\nP 01 1 180000000 180000000\nP 1- 1 100000000 100000000\n\
               K 0 720000000 720000000\nK 1 280000000 280000000\nL 0 280000000 280000000\n\
               SAIFI 280000000 280000000\nSAIDI 16800000000 16800000000\nCAIDI 60 60\nMAIFI 0 0\n";
    assert_eq!(report_of(CASE_A), due);
}

#[test]
fn b_remainders() {
    let paths = [
        "0- 0 666666667 666666667",
        "10 0 222222222 222222223",
        "11 1 111111110 111111111",
    ];
    assert_eq!(lines(CASE_B, "P "), paths);
    assert_eq!(
        lines(CASE_B, "K "),
        ["0 888888889 888888890", "1 111111110 111111111"]
    );
    // The bounds of the loss differ, so 60 minutes are enclosed and not met.
    assert_eq!(lines(CASE_B, "CAIDI "), ["59 61"]);
}

#[test]
fn c_d_all_blank() {
    let never = "01 01 01  00  02 01 0002  00";
    assert_eq!(lines(never, "P "), ["- 0 1000000000 1000000000"]);
    let always = "01 01 01  00  02 01 0003  01 00";
    assert_eq!(lines(always, "P "), ["- 1 1000000000 1000000000"]);
}

#[test]
fn e_blank_between() {
    let study = "03 01 01  00 00 00  03 02 02 0002 0202  01 00";
    let paths = ["0-- 0 1000000000 1000000000", "1-0 0 0 0", "1-1 1 0 0"];
    assert_eq!(lines(study, "P "), paths);
}

#[test]
fn f_width() {
    let six = "06 01 01  01 04 01 04 01 04 01 04 01 04 01 04  02 01 0002  01 00";
    // Component 0 is settled in each of its states, though only state 1 loses the load.
    assert!(report_of(six).starts_with("PATHS 4\n"));
    // A seventh is refused once its own fields are read, and not before.
    let seven = "07 01 01  01 04 01 04 01 04 01 04 01 04 01 04";
    assert_eq!(report_of(&format!("{seven}  00")), "REFUSED 7 too wide\n");
    assert_eq!(report_of(&format!("{seven}  02 00")), "REFUSED 1 short\n");
    assert_eq!(
        report_of(&format!("{seven}  02 01CA9A3B")),
        "REFUSED 6 over one\n"
    );
}

#[test]
fn g_sums() {
    let rest = "02 01 0002  01 00";
    let one = format!("01 01 01  0F 04 00CA9A3A 00000001 00000000  {rest}");
    assert!(report_of(&one).starts_with("PATHS 4\n"));
    let above = format!("01 01 01  0F 04 00CA9A3A 00000001 01000000  {rest}");
    assert_eq!(report_of(&above), "REFUSED 6 over one\n");
    let wrapped = format!("01 01 01  0F 04 00000080 00000080 00000000  {rest}");
    assert_eq!(report_of(&wrapped), "REFUSED 6 over one\n");
}

#[test]
fn h_counts_one_by_one() {
    assert_eq!(report_of(""), "REFUSED 1 short\n");
    assert_eq!(report_of("0D"), "REFUSED 2 counts\n");
    assert_eq!(report_of("01"), "REFUSED 1 short\n");
    assert_eq!(report_of("01 00"), "REFUSED 2 counts\n");
    assert_eq!(report_of("01 01"), "REFUSED 1 short\n");
    assert_eq!(report_of("01 01 09"), "REFUSED 2 counts\n");
}

#[test]
fn i_j_thresholds() {
    let front = "01 01 01  00";
    let three_of_two = format!("{front}  03 03 02 0002 0001  01 00");
    assert_eq!(report_of(&three_of_two), "REFUSED 12 threshold\n");
    // The one test of J counts once, though it stands twice.
    let twice = format!("{front}  03 02 02 0002 0002  01 00");
    assert_eq!(report_of(&twice), "REFUSED 12 threshold\n");
    let by_one = format!("{front}  02 02 0002 0002  01 00");
    let paths = ["0 0 1000000000 1000000000", "1 1 0 0"];
    assert_eq!(lines(&by_one, "P "), paths);
    // A bad threshold waits for the gate's last field.
    let none = format!("{front}  00  01 00");
    assert_eq!(report_of(&none), "REFUSED 12 threshold\n");
    let later = format!("{front}  03 00 01 0102");
    assert_eq!(report_of(&later), "REFUSED 9 no component\n");
}

#[test]
fn repeats_count_once() {
    // Components that fail at 0.1 and 0.2, under a vote of two: component 0 stands twice, side by side or apart, and does not win it alone.
    let front = "02 01 01  02 00E1F505  02 00C2EB0B";
    let paths = [
        "0- 0 900000000 900000000",
        "10 0 80000000 80000000",
        "11 1 20000000 20000000",
    ];
    for tests in ["0002 0002 0102", "0002 0102 0002", "0102 0002 0002"] {
        let vote = |threshold| format!("{front}  03 {threshold} 03 {tests}  01 00");
        assert_eq!(lines(&vote("02"), "P "), paths, "{tests}");
        assert_eq!(report_of(&vote("03")), "REFUSED 12 threshold\n", "{tests}");
    }
    // The same by gates.
    let front = "02 03 01  02 00E1F505  02 00C2EB0B  02 01 0002  02 01 0102";
    for inputs in ["00 00 01", "01 00 01", "00 01 00"] {
        let vote = |threshold| format!("{front}  05 {threshold} 03 {inputs}  01 02");
        assert_eq!(lines(&vote("02"), "P "), paths, "{inputs}");
        assert_eq!(report_of(&vote("03")), "REFUSED 12 threshold\n", "{inputs}");
    }
}

#[test]
fn other_masks_and_other_gates_are_other_inputs() {
    // Masks 2 and 6 of a component with three states are both true in state 1.
    let masks = "01 01 01  01 03  03 02 02 0002 0006  01 00";
    let paths = ["0 0 1000000000 1000000000", "1 1 0 0", "2 0 0 0"];
    assert_eq!(lines(masks, "P "), paths);
    // Two gates that ask the same, and a test beside a gate that asks the same.
    let gates = "01 03 01  00  02 01 0002  02 01 0002  05 02 02 00 01  01 02";
    let both = "01 02 01  00  02 01 0002  07 02 01 0002 01 00  01 01";
    for study in [gates, both] {
        let paths = ["0 0 1000000000 1000000000", "1 1 0 0"];
        assert_eq!(lines(study, "P "), paths, "{study}");
    }
}

#[test]
fn counts_go_by_what_stands() {
    let tests = |count: usize| {
        let same = "0002 ".repeat(count);
        format!("01 01 01  00  02 {count:02X} {same}  01 00")
    };
    assert!(report_of(&tests(12)).starts_with("PATHS 2\n"));
    assert_eq!(report_of(&tests(13)), "REFUSED 8 inputs\n");
    let gates = |threshold: u8, count: usize| {
        let same = "00 ".repeat(count);
        format!("01 02 01  00  02 01 0002  05 {threshold:02X} {count:02X} {same}  01 01")
    };
    assert!(report_of(&gates(1, 31)).starts_with("PATHS 2\n"));
    assert_eq!(report_of(&gates(2, 31)), "REFUSED 12 threshold\n");
    assert_eq!(report_of(&gates(1, 32)), "REFUSED 8 inputs\n");
    // A threshold that is too high for repeats waits for the gate's last field too.
    let later = "01 02 01  00  02 01 0002  07 03 02 0002 0002 01 01";
    assert_eq!(report_of(later), "REFUSED 11 gate ahead\n");
}

#[test]
fn repeats_in_an_altered_image() {
    let image = image_of("02 01 01  00  00  03 02 03 0002 0102 0002  01 00");
    // Gate 0 stands at byte 159: its threshold, and the component of its last test at byte 163.
    for (at, value, due) in [
        (159, 1, Ok(3)),
        (159, 2, Ok(3)),
        (159, 3, Err(16)),
        (163, 0, Err(16)),
    ] {
        let mut altered = image.clone();
        altered[at] = value;
        for call in [library::list_paths, second_list] {
            assert_eq!(call(&altered, &mut [0; 9]), due, "{at}: {value}");
        }
    }
}

#[test]
fn k_probability_zero() {
    let study = "01 01 01  02 00000000  02 01 0002  03 00 01000000";
    let paths = ["0 0 1000000000 1000000000", "1 1 0 0"];
    assert_eq!(lines(study, "P "), paths);
    assert_eq!(lines(study, "K "), ["0 1000000000 1000000000", "1 0 0"]);
    assert_eq!(lines(study, "CAIDI "), ["none"]);
    assert_eq!(lines(study, "MAIFI "), ["0 0"]);
}

#[test]
fn l_room_for_a_list() {
    let image = image_of(CASE_A);
    for call in [library::list_paths, second_list] {
        let mut short = [0xA5; 8];
        assert_eq!(call(&image, &mut short), Err(18));
        assert_eq!(short, [0xA5; 8]);
        let mut enough = [0xA5; 9];
        assert_eq!(call(&image, &mut enough), Ok(3));
        assert_eq!(enough, [0, 0, 0, 0, 1, 1, 1, 255, 1]);
    }
}

#[test]
fn m_no_customers() {
    let mut image = image_of(CASE_A);
    assert_eq!(library::set_customers(&mut image, 0, 0), Ok(0));
    for call in [library::figures, second_figures] {
        let held = generate::figures(&mut Random::new(0));
        let mut figures = held;
        assert_eq!(call(&image, &mut figures), Err(19));
        assert_eq!(figures, held);
    }
    let nobody = "02 01 01  02 00E1F505  02 00C2EB0B  02 02 0002 0102  05 00 3C000000";
    assert!(report_of(nobody).ends_with("L 0 280000000 280000000\nINDICES 19\n"));
}

#[test]
fn lacking_states_at_their_bit() {
    // Bits 1 and 2 of a component with two states: the first field comes first, and of the second no byte is needed.
    assert_eq!(report_of("01 01 01  06 000000"), "REFUSED 1 short\n");
    assert_eq!(report_of("01 01 01  06 00000000"), "REFUSED 5 no state\n");
    assert_eq!(report_of("01 01 01  04 00000000"), "REFUSED 5 no state\n");
    // A probability far above one is judged with the sum, so what stands behind it is met before.
    assert_eq!(report_of("01 01 01  06 FFFFFFFF"), "REFUSED 5 no state\n");
    assert_eq!(
        report_of("01 01 01  07 03 FFFFFFFF 0000"),
        "REFUSED 1 short\n"
    );
}

#[test]
fn loads_are_judged_field_by_field() {
    let front = "01 01 01  00  02 01 0002";
    assert_eq!(
        report_of(&format!("{front}  07 01")),
        "REFUSED 13 no gate\n"
    );
    assert_eq!(
        report_of(&format!("{front}  07 00 A1860100")),
        "REFUSED 14 load size\n"
    );
    assert_eq!(
        report_of(&format!("{front}  07 00 A0860100 214E0000")),
        "REFUSED 14 load size\n"
    );
    assert_eq!(
        report_of(&format!("{front}  07 00 A0860100 204E0000 00")),
        "REFUSED 15 left over\n"
    );
}

#[test]
fn largest_sums() {
    // Eight loads of 100,000 customers and 20,000 minutes that are lost for sure.
    let load = "07 00 A0860100 204E0000 ".repeat(8);
    let study = format!("01 01 08  00  02 01 0003  {load}");
    assert_eq!(lines(&study, "SAIDI "), ["20000000000000 20000000000000"]);
    assert_eq!(lines(&study, "CAIDI "), ["20000 20000"]);
}

#[test]
fn five_minutes_are_short_and_six_are_not() {
    let front = "02 01 02  02 00E1F505  02 00C2EB0B  02 02 0002 0102";
    // 10 customers within 5 minutes beside 30 within 6, all lost at 0.28; all 40 are served.
    let study = format!("{front}  07 00 0A000000 05000000  07 00 1E000000 06000000");
    assert_eq!(lines(&study, "SAIFI "), ["210000000 210000000"]);
    assert_eq!(lines(&study, "SAIDI "), ["1260000000 1260000000"]);
    assert_eq!(lines(&study, "CAIDI "), ["6 6"]);
    assert_eq!(lines(&study, "MAIFI "), ["70000000 70000000"]);
    // A load that states no restore time is short; a load without customers changes nothing.
    let study = format!("{front}  03 00 0A000000  05 00 3C000000");
    let tail = "SAIFI 0 0\nSAIDI 0 0\nCAIDI none\nMAIFI 280000000 280000000\n";
    assert!(report_of(&study).ends_with(tail));
}

#[test]
fn numbers_of_caidi_keep_what_they_held() {
    let short = "02 01 01  02 00E1F505  02 00C2EB0B  02 02 0002 0102  07 00 64000000 05000000";
    let image = image_of(short);
    for call in [library::figures, second_figures] {
        let held = generate::figures(&mut Random::new(0));
        let mut figures = held;
        assert_eq!(call(&image, &mut figures), Ok(3));
        let due = Figures {
            saifi: [0; 2].into(),
            saidi: [0; 2].into(),
            caidi: held.caidi,
            maifi: [280_000_000; 2].into(),
        };
        assert_eq!(figures, due);
    }
}

#[test]
fn reports_have_the_bounds_of_classes_beside_them() {
    let (bytes, due) = (from_hexadecimal(CASE_B), report_of(CASE_B));
    let size = due.len();
    for report in [library::report, reference::report] {
        let mut text = vec![0xA5; size + 1];
        let [mut lower, mut upper] = [[7; CLASS_PLACES + 1]; 2];
        let refused = [
            report(&bytes, &mut text[..size - 1], &mut lower, &mut upper),
            report(&bytes, &mut text, &mut lower[..255], &mut upper),
            report(&bytes, &mut text, &mut lower, &mut upper[..255]),
            report(&bytes, &mut text, &mut [], &mut []),
        ];
        assert_eq!(refused, [Err(18); 4]);
        assert_eq!(text, vec![0xA5; size + 1]);
        assert_eq!([lower, upper], [[7; CLASS_PLACES + 1]; 2]);
        let answer = report(&bytes, &mut text, &mut lower, &mut upper);
        assert_eq!(answer, Ok(size));
        assert_eq!(text, [due.as_bytes(), &[0xA5]].concat());
        let [mut lowers, mut uppers] = [[0; CLASS_PLACES + 1]; 2];
        (lowers[0], lowers[1], lowers[256]) = (888_888_889, 111_111_110, 7);
        (uppers[0], uppers[1], uppers[256]) = (888_888_890, 111_111_111, 7);
        assert_eq!([lower, upper], [lowers, uppers]);
    }
}

#[test]
fn refused_studies_leave_slices_as_they_are() {
    let due = b"REFUSED 1 short\n";
    for report in [library::report, reference::report] {
        let mut text = [0xA5; 17];
        assert_eq!(report(&[], &mut text[..15], &mut [], &mut []), Err(18));
        assert_eq!(text, [0xA5; 17]);
        assert_eq!(report(&[], &mut text, &mut [], &mut []), Ok(16));
        assert_eq!(text[..], [&due[..], &[0xA5]].concat());
        let [mut lower, mut upper] = [[7; CLASS_PLACES]; 2];
        assert_eq!(report(&[], &mut text, &mut lower, &mut upper), Ok(16));
        assert_eq!([lower, upper], [[7; CLASS_PLACES]; 2]);
    }
}
