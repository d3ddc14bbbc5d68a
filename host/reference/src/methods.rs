//! "Methods and their lines": the table of methods, and what a line adds to which gas; refusal 5.

use std::ops::RangeInclusive;

use crate::register::Line;
use Gas::{Ch4, Co2, N2o};

#[derive(Clone, Copy, Debug, PartialEq, Eq)]
pub enum Gas {
    Co2,
    Ch4,
    N2o,
}

/// A row of the table of methods: the lines that it takes, and what such a line adds to the exact whole number N of its
/// gas, below zero where it takes from it.
pub struct Row {
    pub method: u8,
    pub parameters: &'static [u8],
    pub kinds: &'static [u8],
    pub units: &'static [u8],
    pub codes: RangeInclusive<u16>,
    pub a: RangeInclusive<u32>,
    pub b: RangeInclusive<u32>,
    pub gas: Gas,
    adds: fn(line: &Line, parameter: u8) -> i128,
}

/// "Units: 1 tonne, 2 thousand m3, 3 tonne of standard fuel, 4 TJ."
const ANY_UNIT: &[u8] = &[1, 2, 3, 4];

/// A's limit goes by the unit (`most_a`); a row says only where A is narrower than that.
const ANY_A: RangeInclusive<u32> = 0..=99_999_999;

const ANY_B: RangeInclusive<u32> = 0..=10_000;
const ALL_B: RangeInclusive<u32> = 10_000..=10_000;

const ONE_TO_SIX: &[u8] = &[1, 2, 3, 4, 5, 6];

#[rustfmt::skip]
pub static TABLE: [Row; 13] = [
    // "1 fuel, 0 | 1, any unit; code 1 gas, 2 liquid, 3 solid; B oxidation, 10,000 for gas and liquid | + Q A B 3664"
    Row { method: 1, parameters: &[0], kinds: &[1], units: ANY_UNIT, codes: 1..=2, a: ANY_A, b: ALL_B, gas: Co2, adds: |l, _| carbon(l, l.b()) },
    Row { method: 1, parameters: &[0], kinds: &[1], units: ANY_UNIT, codes: 3..=3, a: ANY_A, b: ANY_B, gas: Co2, adds: |l, _| carbon(l, l.b()) },

    // "2 flare, 0 | 1, units 1 and 2, code 0, B share unburned | + Q A (10,000 - B) 3664"
    Row { method: 2, parameters: &[0], kinds: &[1], units: &[1, 2], codes: 0..=0, a: ANY_A, b: ANY_B, gas: Co2, adds: |l, _| carbon(l, 10_000 - l.b()) },
    // "Flare also has kind 2, unburned methane: units 1 and 2, code 0, A tonnes of CH4 per unit, B share unburned;
    // CH4 in grams is the sum of Q A B / 10^7."
    Row { method: 2, parameters: &[0], kinds: &[2], units: &[1, 2], codes: 0..=0, a: ANY_A, b: ANY_B, gas: Ch4, adds: |l, _| l.q() * l.a() * l.b() },

    // "3 metals, 0 | 10 in, 12 opening stock; any unit, code 0, B 10,000 | + Q A B 3664"
    Row { method: 3, parameters: &[0], kinds: &[10, 12], units: ANY_UNIT, codes: 0..=0, a: ANY_A, b: ALL_B, gas: Co2, adds: |l, _| carbon(l, l.b()) },
    // "11 out, 13 closing stock, likewise | - Q A B 3664"
    Row { method: 3, parameters: &[0], kinds: &[11, 13], units: ANY_UNIT, codes: 0..=0, a: ANY_A, b: ALL_B, gas: Co2, adds: |l, _| -carbon(l, l.b()) },

    // "4 petrochemical, 1 methanol, .. 6 carbon black | 10 feed, as method 3 | + Q A B 3664"
    Row { method: 4, parameters: ONE_TO_SIX, kinds: &[10], units: ANY_UNIT, codes: 0..=0, a: ANY_A, b: ALL_B, gas: Co2, adds: |l, _| carbon(l, l.b()) },
    // "11 product, 14 by-product, likewise; 14 only with parameter 2 or 5 | - Q A B 3664"
    Row { method: 4, parameters: ONE_TO_SIX, kinds: &[11], units: ANY_UNIT, codes: 0..=0, a: ANY_A, b: ALL_B, gas: Co2, adds: |l, _| -carbon(l, l.b()) },
    Row { method: 4, parameters: &[2, 5], kinds: &[14], units: ANY_UNIT, codes: 0..=0, a: ANY_A, b: ALL_B, gas: Co2, adds: |l, _| -carbon(l, l.b()) },

    // "5 cement, 0 | 20 carbonate charged, unit 1, code 1 to 4, B calcined share | + Q A B k"
    Row { method: 5, parameters: &[0], kinds: &[20], units: &[1], codes: 1..=4, a: ANY_A, b: ANY_B, gas: Co2, adds: |l, _| carbonate(l, l.b()) },
    // "21 kiln dust not returned, likewise | - Q A (10,000 - B) k"
    Row { method: 5, parameters: &[0], kinds: &[21], units: &[1], codes: 1..=4, a: ANY_A, b: ANY_B, gas: Co2, adds: |l, _| -carbonate(l, 10_000 - l.b()) },
    // "22 carbon other than fuel, unit 1, code 0, B 10,000 | + Q A B 3664"
    Row { method: 5, parameters: &[0], kinds: &[22], units: &[1], codes: 0..=0, a: ANY_A, b: ALL_B, gas: Co2, adds: |l, _| carbon(l, l.b()) },

    // "Method 6 is nitric acid: kind 30, unit 1, code 0, A 0, B 0, parameter 1 to 6. N2O in grams is the sum of Q f /
    // 10^4"
    Row { method: 6, parameters: ONE_TO_SIX, kinds: &[30], units: &[1], codes: 0..=0, a: 0..=0, b: 0..=0, gas: N2o, adds: |l, parameter| l.q() * acid_factor(parameter) },
];

/// Carbon of a line, by the share that counts, as CO2: "3.664" in thousandths.
fn carbon(line: &Line, share: i128) -> i128 {
    line.q() * line.a() * share * 3664
}

/// CO2 of a carbonate line, by the share that counts; A is the carbonate's share.
fn carbonate(line: &Line, share: i128) -> i128 {
    line.q() * line.a() * share * carbonate_factor(line.code)
}

/// "The carbonate factors k, in thousandths, are CaCO3 440, MgCO3 522, CaMg(CO3)2 477, FeCO3 380, codes 1 to 4."
fn carbonate_factor(code: u16) -> i128 {
    [440, 522, 477, 380][usize::from(code) - 1]
}

/// "f in tenths of a gram per tonne: 20,000; 25,000; 50,000; 75,000; 90,000; 5", parameters 1 to 6.
fn acid_factor(parameter: u8) -> i128 {
    [20_000, 25_000, 50_000, 75_000, 90_000, 5][usize::from(parameter) - 1]
}

/// A line's numbers without a width, so that no product of them wraps.
impl Line {
    fn q(&self) -> i128 {
        i128::from(self.quantity)
    }

    fn a(&self) -> i128 {
        i128::from(self.a)
    }

    fn b(&self) -> i128 {
        i128::from(self.b)
    }
}

/// "method and parameter (1 each, a pair listed under the methods)"
pub fn is_listed(method: u8, parameter: u8) -> bool {
    TABLE.iter().any(|row| row.method == method && row.parameters.contains(&parameter))
}

/// The row that takes a line; none where it "breaks its ranges or is wrong for its method". "An accepted line is of
/// exactly one kind", so at most one row takes it.
pub fn row_of(method: u8, parameter: u8, line: &Line) -> Option<&'static Row> {
    TABLE.iter().find(|row| is_in_range(line) && row.takes(method, parameter, line))
}

/// What an accepted line adds to which gas.
pub fn contribution(method: u8, parameter: u8, line: &Line) -> Option<(Gas, i128)> {
    let row = row_of(method, parameter, line)?;
    Some((row.gas, (row.adds)(line, parameter)))
}

/// "Q is 0 to 10,000,000,000 thousandths of the unit."
pub const MOST_QUANTITY: u64 = 10_000_000_000;

/// "A is in millionths: at most 1,000,000 where the unit is tonne, else at most 99,999,999."
pub fn most_a(unit: u8) -> u32 {
    if unit == 1 {
        1_000_000
    } else {
        99_999_999
    }
}

/// The ranges of Q and A, and "B is in ten-thousandths, 0 to 10,000."
fn is_in_range(line: &Line) -> bool {
    line.quantity <= MOST_QUANTITY && line.a <= most_a(line.unit) && ANY_B.contains(&line.b)
}

impl Row {
    fn takes(&self, method: u8, parameter: u8, line: &Line) -> bool {
        self.method == method
            && self.parameters.contains(&parameter)
            && self.kinds.contains(&line.kind)
            && self.units.contains(&line.unit)
            && self.codes.contains(&line.code)
            && self.a.contains(&line.a)
            && self.b.contains(&line.b)
    }
}
