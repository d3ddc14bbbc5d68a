//! "Rounding and equivalence": a source's masses in whole grams; refusals 6 and 7.

use crate::layout::{FIGURES, GASES};
use crate::methods::{contribution, Gas};
use crate::register::Line;

/// "at most 10^15 g a source"
pub const MOST_EQUIVALENT: u128 = 1_000_000_000_000_000;

/// "Warming potentials are the 100-year values of the IPCC Fourth Assessment: CO2 1, CH4 25, N2O 298."
pub const WARMING: [u64; GASES] = [1, 25, 298];

/// Whole grams of each gas.
#[derive(Clone, Copy, Debug, Default, PartialEq, Eq)]
pub struct Masses {
    pub co2: u64,
    pub ch4: u64,
    pub n2o: u64,
}

impl Masses {
    /// "CO2-equivalent is CO2 + 25 CH4 + 298 N2O of the rounded masses."
    pub fn equivalent(&self) -> u128 {
        self.gases().iter().zip(WARMING).map(|(mass, warming)| mass * u128::from(warming)).sum()
    }

    /// Each gas in a report's order.
    fn gases(&self) -> [u128; GASES] {
        [self.co2, self.ch4, self.n2o].map(u128::from)
    }

    /// Each gas, and the equivalent behind them.
    pub fn with_equivalent(&self) -> [u128; FIGURES] {
        let mut figures = [self.equivalent(); FIGURES];
        figures[..GASES].copy_from_slice(&self.gases());
        figures
    }
}

/// Why a source has no masses: refusal 6 or 7.
#[derive(Clone, Copy, Debug, PartialEq, Eq)]
pub enum Unfit {
    Co2BelowZero,
    EquivalentAboveLimit,
}

impl Unfit {
    pub fn refusal_number(self) -> u32 {
        match self {
            Unfit::Co2BelowZero => 6,
            Unfit::EquivalentAboveLimit => 7,
        }
    }
}

/// The masses of a source whose lines are all accepted.
pub fn masses_of(method: u8, parameter: u8, lines: &[Line]) -> Result<Masses, Unfit> {
    let sum_of = |gas| exact_sum(method, parameter, lines, gas);
    let co2 = sum_of(Gas::Co2);
    if co2 < 0 {
        return Err(Unfit::Co2BelowZero);
    }
    let masses = Masses {
        co2: rounded(co2, 10_000_000_000),
        ch4: rounded(sum_of(Gas::Ch4), 10_000_000),
        n2o: rounded(sum_of(Gas::N2o), 10_000),
    };
    if masses.equivalent() > MOST_EQUIVALENT {
        return Err(Unfit::EquivalentAboveLimit);
    }
    Ok(masses)
}

/// "The exact sum of a source's lines for one gas."
fn exact_sum(method: u8, parameter: u8, lines: &[Line], gas: Gas) -> i128 {
    let contributions = lines.iter().filter_map(|line| contribution(method, parameter, line));
    contributions.filter(|&(line_gas, _)| line_gas == gas).map(|(_, amount)| amount).sum()
}

/// "rounded once to whole grams, nearest, an exact half upward"; the exact grams are `sum` / `per_gram`.
fn rounded(sum: i128, per_gram: i128) -> u64 {
    let grams = (2 * sum + per_gram) / (2 * per_gram);
    u64::try_from(grams).expect("1,024 lines of the largest numbers stay below 2^63 grams")
}
