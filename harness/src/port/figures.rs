//! SAIFI, SAIDI, CAIDI and MAIFI from the bounds of loads.
use super::study::*;

pub struct Enclosure {
    pub lower: u64,
    pub upper: u64,
}

pub struct Figures {
    pub saifi: Enclosure,
    pub saidi: Enclosure,
    pub caidi: Option<Enclosure>,
    pub maifi: Enclosure,
}

fn enclosure(low: u64, under: u64, high: u64, over: u64) -> Enclosure {
    Enclosure {
        lower: low / under,
        upper: high.div_ceil(over),
    }
}

/// The sums over one bound of each loss: of the loads that are longer away, and of the short ones.
#[derive(Default)]
struct Sums {
    sustained: u64,
    minutes: u64,
    momentary: u64,
}

impl Sums {
    fn of(losses: &[u64], loads: &[Load]) -> Sums {
        let mut sums = Sums::default();
        for (loss, load) in losses.iter().zip(loads) {
            let lost = loss * u64::from(load.customers);
            if load.minutes <= LONGEST_MOMENTARY {
                sums.momentary += lost;
            } else {
                sums.sustained += lost;
                sums.minutes += lost * u64::from(load.minutes);
            }
        }
        sums
    }
}

/// None where there are no customers to divide by.
pub fn figures_of(lower: &[u64], upper: &[u64], loads: &[Load]) -> Option<Figures> {
    let customers = loads.iter().map(|load| u64::from(load.customers)).sum();
    if customers == 0 {
        return None;
    }
    let (low, high) = (Sums::of(lower, loads), Sums::of(upper, loads));
    let caidi = || enclosure(low.minutes, high.sustained, high.minutes, low.sustained);
    Some(Figures {
        saifi: enclosure(low.sustained, customers, high.sustained, customers),
        saidi: enclosure(low.minutes, customers, high.minutes, customers),
        caidi: (low.sustained != 0).then(caidi),
        maifi: enclosure(low.momentary, customers, high.momentary, customers),
    })
}
