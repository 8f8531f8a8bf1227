//! SAIFI, SAIDI, CAIDI and MAIFI.
use super::bounds::{load_bounds, Bounds};
use super::paths::Path;
use super::refusals::{unless, NO_CUSTOMERS};
use super::study::{Load, Study};

/// The longest restore time of a momentary loss, in minutes.
const LONGEST_MOMENTARY: u32 = 5;

/// The figures of a study.
pub struct Figures {
    pub saifi: Bounds,
    pub saidi: Bounds,
    /// None: not stated.
    pub caidi: Option<Bounds>,
    pub maifi: Bounds,
}

/// A lower and an upper sum.
#[derive(Default)]
struct Sums {
    low: u128,
    high: u128,
}

impl Sums {
    fn add(&mut self, loss: Bounds, weight: u128) {
        self.low += u128::from(loss.lower) * weight;
        self.high += u128::from(loss.upper) * weight;
    }

    /// The lower sum over the upper divisor, rounded down, beside the upper sum over the lower one, rounded up.
    fn over(&self, divisor: &Sums) -> Bounds {
        let lower = self.low / divisor.high;
        let upper = self.high.div_ceil(divisor.low);
        Bounds {
            lower: u64::try_from(lower).expect("a lower figure fits 64 bits"),
            upper: u64::try_from(upper).expect("an upper figure fits 64 bits"),
        }
    }
}

/// A load that is back within five minutes, or that states no time.
fn is_short(load: &Load) -> bool {
    load.minutes <= LONGEST_MOMENTARY
}

/// The figures from a list of paths with their bounds; 19 where there are no customers.
pub fn figures(study: &Study, list: &[(Path, Bounds)]) -> Result<Figures, u8> {
    let (mut sustained, mut minutes, mut momentary) = <(Sums, Sums, Sums)>::default();
    for (j, load) in study.loads.iter().enumerate() {
        let loss = load_bounds(list, j);
        let c = u128::from(load.customers);
        if is_short(load) {
            momentary.add(loss, c);
        } else {
            sustained.add(loss, c);
            minutes.add(loss, c * u128::from(load.minutes));
        }
    }
    let served = study.loads.iter().map(|load| u128::from(load.customers));
    let customers = served.sum();
    unless(customers > 0, NO_CUSTOMERS)?;
    let all = Sums {
        low: customers,
        high: customers,
    };
    Ok(Figures {
        saifi: sustained.over(&all),
        saidi: minutes.over(&all),
        caidi: (sustained.low > 0).then(|| minutes.over(&sustained)),
        maifi: momentary.over(&all),
    })
}
