//! What demand 2 asks of bounds and figures, held against exact numbers.
use crate::given::Given;
use crate::held::Held;
use harness::reference::big::Big;
use harness::reference::bounds::Bounds;
use harness::reference::exact::Exact;
use harness::reference::paths::Path;
use harness::reference::refusals::NO_CUSTOMERS;
use harness::reference::study::{Study, ONE};
use std::fmt;

/// What is given of a study, beside what is exact.
pub struct Check<'a> {
    pub name: String,
    pub study: &'a Study,
    pub given: Given,
    pub exact: Exact,
}

/// How far its bounds may be off, in units: one for every settled state but the first.
fn distance(path: &Path) -> u64 {
    let settled = path.marks.iter().flatten().count();
    settled.saturating_sub(1) as u64
}

/// The customers of all loads, and the exact sums that are divided for the figures.
struct Sums {
    customers: u64,
    sustained: Big,
    minutes: Big,
    momentary: Big,
}

impl Check<'_> {
    pub fn all(&self, held: &mut Held) {
        held.count_study(self.study, self.given.paths.len());
        for (path, bounds) in &self.given.paths {
            let exact = self.exact.sum(|joint, _| path.holds(joint));
            self.near(*bounds, &exact, distance(path), format_args!("path {path}"));
            held.count_path(*bounds);
        }
        for &(class, bounds) in &self.given.classes {
            let wanted = |other| other == class;
            self.total(held, bounds, wanted, format_args!("class {class}"));
        }
        for (load, &bounds) in self.given.loads.iter().enumerate() {
            let wanted = |class| class & (1 << load) != 0;
            self.total(held, bounds, wanted, format_args!("load {load}"));
        }
        self.figures();
        held.count_figures(&self.given.figures);
    }

    /// Holds bounds against the exact number that they enclose, from which neither may be farther than so many units.
    fn near(&self, bounds: Bounds, exact: &Big, farthest: u64, what: fmt::Arguments) {
        let units = |n: u64| self.exact.unit.times(n);
        let [lower, upper, farthest] = [bounds.lower, bounds.upper, farthest].map(units);
        for (kept, broken) in [
            (lower <= *exact, "the lower bound is above"),
            (*exact <= upper, "the upper bound is below"),
            (*exact <= lower.plus(&farthest), "the lower bound is far"),
            (upper <= exact.plus(&farthest), "the upper bound is far"),
            (bounds.upper <= ONE as u64, "more than one"),
        ] {
            assert!(kept, "{}: {what}, {bounds}: {broken}", self.name);
        }
    }

    /// Holds the bounds of a class or a load: sums over the paths whose class is wanted.
    fn total(
        &self,
        held: &mut Held,
        bounds: Bounds,
        wanted: impl Fn(u8) -> bool,
        what: fmt::Arguments,
    ) {
        let added = self.given.paths.iter();
        let added = added.filter(|(path, _)| wanted(path.class));
        let farthest = added.clone().map(|(path, _)| distance(path)).sum();
        let exact = self.exact.sum(|_, class| wanted(class));
        self.near(bounds, &exact, farthest, what);
        held.count_total(bounds, added.map(|(_, bounds)| bounds.upper).sum());
    }

    fn sums(&self) -> Sums {
        let mut sums = Sums {
            customers: 0,
            sustained: Big::new(0),
            minutes: Big::new(0),
            momentary: Big::new(0),
        };
        for (j, load) in self.study.loads.iter().enumerate() {
            let loss = self.exact.sum(|_, class| class & (1 << j) != 0);
            let affected = loss.times(load.customers.into());
            sums.customers += u64::from(load.customers);
            match load.minutes {
                0..=5 => sums.momentary = sums.momentary.plus(&affected),
                longer => {
                    sums.sustained = sums.sustained.plus(&affected);
                    sums.minutes = sums.minutes.plus(&affected.times(longer.into()));
                }
            }
        }
        sums
    }

    /// Holds the figures against the exact quotients; they are refused where there are no customers, and nowhere else.
    fn figures(&self) {
        let sums = self.sums();
        let due = (sums.customers == 0).then_some(NO_CUSTOMERS);
        let refused = self.given.figures.as_ref().err().copied();
        assert_eq!(refused, due, "{}: figures", self.name);
        let Ok(figures) = &self.given.figures else {
            return;
        };
        let served = &self.exact.unit.times(sums.customers);
        self.quotient(figures.saifi, &sums.sustained, served, "SAIFI");
        self.quotient(figures.saidi, &sums.minutes, served, "SAIDI");
        self.quotient(figures.maifi, &sums.momentary, served, "MAIFI");
        if let Some(caidi) = figures.caidi {
            self.quotient(caidi, &sums.minutes, &sums.sustained, "CAIDI");
        }
    }

    /// Holds a figure against the quotient that it encloses.
    fn quotient(&self, bounds: Bounds, top: &Big, bottom: &Big, figure: &str) {
        let lower_is_below = bottom.times(bounds.lower) <= *top;
        let upper_is_above = *top <= bottom.times(bounds.upper);
        let encloses = lower_is_below && upper_is_above;
        assert!(encloses, "{}: {figure} {bounds}", self.name);
    }
}
