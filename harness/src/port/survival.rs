//! The chance of surviving from a rate and hours.
use crate::library::{Bounds, Chances};

const ONE: u64 = 1_000_000_000;

/// The largest exponent, in units.
const FARTHEST: u64 = 20_000_000_000;

/// What is left of an exponent below it is bounded by a straight line.
const GRAIN: u64 = 1 << 14;

/// The exponentials of minus 2^14, 2^15, .. , 2^34 units, rounded down.
const FACTORS: [u64; 21] = [
    999_983_616,
    999_967_232,
    999_934_466,
    999_868_936,
    999_737_890,
    999_475_849,
    998_951_973,
    997_905_045,
    995_814_479,
    991_646_478,
    983_362_737,
    967_002_273,
    935_093_397,
    874_399_662,
    764_574_769,
    584_574_578,
    341_727_438,
    116_777_642,
    13_637_017,
    185_968,
    34,
];

/// A lower and an upper bound for the exponential of minus an exponent.
fn bounds(exponent: u64) -> Bounds {
    let mut lower = ONE - exponent % GRAIN;
    let mut upper = ONE.min(lower + 1);
    let mut bits = exponent / GRAIN;
    for factor in FACTORS {
        if bits % 2 != 0 {
            lower = lower * factor / ONE;
            upper = (upper * (factor + 1)).div_ceil(ONE);
        }
        bits /= 2;
    }
    Bounds {
        lower,
        upper: ONE.min(upper + 1),
    }
}

/// Writes the bounds for the chance of surviving, and those for a failure. Refused by 23.
pub fn survival(fit: u32, hours: u32, chances: &mut Chances) -> Result<usize, u8> {
    let exponent = u64::from(fit) * u64::from(hours);
    if exponent > FARTHEST {
        return Err(23);
    }
    let survival = bounds(exponent);
    let failure = Bounds {
        lower: ONE - survival.upper,
        upper: ONE - survival.lower,
    };
    *chances = Chances { survival, failure };
    Ok(0)
}
