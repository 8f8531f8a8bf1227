//! The chance of surviving: refusals and lent numbers compared, and bounds judged by what is promised, since which pair is given is the library's choice.
use crate::calls::Call;
use crate::lent::Lent;
use crate::tally::Tally;
use harness::generate::{self, Random};
use harness::library::{self, Chances};
use harness::reference::survival::{broken, exponent, FARTHEST, ONE};

/// How many drawn chances are judged, and of how many more only the gap is looked at.
const JUDGED: usize = 100_000;
const LOOKED_AT: usize = 1_000_000;

/// A number of so many bits at most, and often of fewer.
fn of_bits(random: &mut Random, most: usize) -> u64 {
    let bits = random.between(0, most);
    random.draw() & ((1 << bits) - 1)
}

/// A rate and hours: as planners have them, of any size, or with a product about the largest that is allowed.
fn drawn(random: &mut Random) -> [u32; 2] {
    let word = |n: u64| u32::try_from(n).unwrap_or(u32::MAX);
    match random.below(16) {
        0..=4 => [random.between(1, 50_000), 8_760 * random.between(1, 60)].map(|n| n as u32),
        5..=10 => [(); 2].map(|_| word(of_bits(random, 32))),
        11 => [random.word(), random.word()],
        _ => {
            let fit = 1 + of_bits(random, 32).min(u64::from(u32::MAX) - 1);
            let hours = FARTHEST / fit + random.below(3) as u64;
            [fit, hours.saturating_sub(1)].map(word)
        }
    }
}

/// A rate and hours with this product.
fn with_product(exponent: u64) -> Option<[u32; 2]> {
    let fits = |fit: &u64| exponent % fit == 0 && exponent / fit <= u64::from(u32::MAX);
    let fit = (1..1 << 17).find(fits)?;
    Some([fit as u32, (exponent / fit) as u32])
}

/// What the work turns on: nothing, one unit, each power of two, one and its multiples, the largest that is allowed, and what is next to each.
fn edges() -> impl Iterator<Item = [u32; 2]> {
    let powers = (0..=34).map(|bit| 1 << bit);
    let ones = (1..=20).map(|times| times * ONE);
    let turns = [0].into_iter().chain(powers).chain(ones);
    let near = turns.flat_map(|turn| turn.saturating_sub(2)..=turn + 2);
    let extremes = [
        [0, u32::MAX],
        [u32::MAX, 0],
        [u32::MAX, u32::MAX],
        [1, u32::MAX],
    ];
    near.filter_map(with_product).chain(extremes)
}

/// One call, in numbers that hold anything.
fn judge(tally: &mut Tally, random: &mut Random, [fit, hours]: [u32; 2]) {
    let lent = Lent::one(random, generate::chances);
    let mut left = lent.clone();
    let answer = library::survival(fit, hours, left.first());
    let judged = exponent(fit, hours);
    let call = format!("{fit} FIT over {hours} hours");
    assert_eq!(answer, judged.map(|_| 0), "{call}");
    tally.calls.count(Call::Survival, answer);
    if let Ok(exponent) = judged {
        let chances = *left.first();
        let what = broken(exponent, chances);
        assert!(what.is_none(), "{call}: {chances:?}: {what:?}");
        *left.first() = lent.held()[0];
    }
    assert!(left == lent, "{call}: more was touched than the bounds");
}

/// Every edge, and pairs that are drawn, until enough of them are given.
pub fn compare_survival(tally: &mut Tally, seed: u64) {
    let random = &mut Random::new(seed);
    for pair in edges() {
        judge(tally, random, pair);
    }
    let given = |tally: &Tally| tally.calls.of(Call::Survival).given;
    let at_edges = given(tally);
    while given(tally) < at_edges + JUDGED {
        let pair = drawn(random);
        judge(tally, random, pair);
    }
}

/// The widest gap between the bounds of surviving, over exponents drawn evenly and by their size.
pub fn widest_gap(seed: u64) -> u64 {
    let random = &mut Random::new(seed);
    let gaps = (0..LOOKED_AT).map(|_| {
        let mut chances = Chances::default();
        let hours = random.pick(&[1, 5, 7, 100, 8_760]);
        let most = (FARTHEST / u64::from(hours)).min(u64::from(u32::MAX));
        let fit = match random.below(2) {
            0 => random.below(most as usize + 1) as u64,
            _ => of_bits(random, 32).min(most),
        };
        library::survival(fit as u32, hours, &mut chances).expect("not too far");
        chances.survival.upper - chances.survival.lower
    });
    gaps.max().unwrap_or(0)
}
