//! The studies that are timed, and the trees that are drawn beside them.
use harness::generate::{drawn, Random, Style};
use harness::library::{self, REPORT_BYTES, STUDY_BYTES};
use harness::port;
use harness::reference::opening::open;
use harness::reference::study::joint_state_count;
use harness::studies::from_hexadecimal;

pub struct Input {
    pub name: String,
    pub bytes: Vec<u8>,
}

impl Input {
    pub fn joint_states(&self) -> usize {
        let study = open(&self.bytes).expect("a sound study");
        joint_state_count(&study.components)
    }

    /// The number in the first line of its report.
    pub fn paths(&self) -> usize {
        let mut text = vec![0; REPORT_BYTES];
        let size = port::report(&self.bytes, &mut text).expect("room for any report");
        let report = String::from_utf8_lossy(&text[..size]);
        let number = report.split_whitespace().nth(1);
        number.and_then(|n| n.parse().ok()).unwrap_or(0)
    }

    /// Its image, once opened.
    pub fn image(&self) -> Vec<u8> {
        let mut image = vec![0; STUDY_BYTES];
        library::open(&self.bytes, &mut image).expect("a sound study");
        image
    }
}

fn input(name: &str, text: &str) -> Input {
    Input {
        name: name.to_string(),
        bytes: from_hexadecimal(text),
    }
}

pub fn studies() -> Vec<Input> {
    vec![
        input(
            "small (case A)",
            include_str!("../../../../studies/case_a.hex"),
        ),
        input("typical", include_str!("../../../../studies/typical.hex")),
        input("widest", include_str!("../../../../studies/widest.hex")),
        input("heaviest", include_str!("../../../../studies/heaviest.hex")),
    ]
}

/// A study beside a tree that was drawn from its gates, by which its classes are bounded.
pub struct Drawn {
    pub study: Input,
    pub tree: Vec<u8>,
}

impl Drawn {
    fn of(study: Input, style: Style) -> Drawn {
        let opened = open(&study.bytes).expect("a sound study");
        Drawn {
            study,
            tree: drawn(&mut Random::new(0), &opened, style),
        }
    }

    /// Its image, and the tree behind it.
    pub fn given(&self) -> Vec<u8> {
        [self.study.image(), self.tree.clone()].concat()
    }
}

/// A tree beside each of the studies: reduced, as a planner draws it, but for the heaviest, whose tree is the deepest.
pub fn trees() -> Vec<Drawn> {
    let styles = [
        Style::Reduced,
        Style::Reduced,
        Style::Reduced,
        Style::Deepest,
    ];
    let each = studies().into_iter().zip(styles);
    each.map(|(study, style)| Drawn::of(study, style)).collect()
}

/// A study of n two-state components; its loads are lost when one, a third, two thirds and all of them have failed.
fn voting(n: u8) -> Input {
    let mut bytes = vec![n, 4, 4];
    for i in 0..n {
        let failed = 1_000_000_000 / (u32::from(i) + 7);
        bytes.push(2);
        bytes.extend(failed.to_le_bytes());
    }
    for threshold in [1, n.div_ceil(3), (2 * n).div_ceil(3), n] {
        bytes.extend([3, threshold, n]);
        bytes.extend((0..n).flat_map(|component| [component, 2]));
    }
    for gate in 0..4u8 {
        bytes.extend([7, gate]);
        bytes.extend(250u32.to_le_bytes());
        bytes.extend(60u32.to_le_bytes());
    }
    Input {
        name: format!("{n} components"),
        bytes,
    }
}

/// The same shape from 2^4 to 2^12 joint states.
pub fn growing() -> Vec<Input> {
    (4..=12).map(voting).collect()
}

/// The bytes of a rate and hours: two numbers of four.
pub const RATE_BYTES: usize = 8;

/// A thousand rates and hours, none of them too far: every size of exponent up to the largest.
pub fn rates() -> Vec<u8> {
    let random = &mut Random::new(0);
    let pairs = (0..1000).map(|_| {
        let fit = random.between(1, 2_000_000) >> random.below(21);
        [fit as u32, random.between(1, 10_000) as u32]
    });
    pairs.flatten().flat_map(u32::to_le_bytes).collect()
}
