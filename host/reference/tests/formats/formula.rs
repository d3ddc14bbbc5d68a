//! The last column of the page's table of kinds: what a line adds to its gas or takes from it.

use reference::methods::Gas;
use reference::register::Line;

use crate::text::{number, single};

/// A gram, in the parts in which exact amounts are counted.
pub const GRAM: i128 = 10_i128.pow(POWER_OF_GRAM);

const POWER_OF_GRAM: u32 = 12;

/// A product, divided by ten to a power.
pub struct Formula {
    pub gas: Gas,
    pub adds: bool,
    pub factors: Vec<Factor>,
    pub power: u32,
}

/// `RestOfB` is "(10,000 - B)".
pub enum Factor {
    Q,
    A,
    B,
    RestOfB(i128),
    Figure(i128),
    K,
    F,
}

/// The factors that stand in tables of their own: k by the code, and f by the parameter, each from 1.
pub struct Stated {
    pub k: Vec<i128>,
    pub f: Vec<i128>,
}

impl Formula {
    /// "CO2: - Q A (10,000 - B) k / 10^10"
    pub fn read(cell: &str) -> Formula {
        let (gas, rest) = cell.split_once(": ").unwrap_or_else(|| panic!("no gas: {cell:?}"));
        let (product, power) = rest.split_once(" / 10^").unwrap_or_else(|| panic!("no divisor: {cell:?}"));
        let (adds, product) = match product.split_once(' ') {
            Some(("+", product)) => (true, product),
            Some(("-", product)) => (false, product),
            _ => panic!("no sign: {cell:?}"),
        };
        let factors = product.replace(" - B)", "-B)").split(' ').map(Factor::read).collect();
        Formula { gas: gas_called(gas), adds, factors, power: single(power) }
    }

    /// What it gives for a line, exactly: below zero where it takes.
    pub fn amount(&self, parameter: u8, line: &Line, stated: &Stated) -> i128 {
        let power = POWER_OF_GRAM.checked_sub(self.power).expect("no divisor is larger than the parts of a gram");
        let mut values = self.factors.iter().map(|factor| factor.value(parameter, line, stated));
        let amount = values.try_fold(10_i128.pow(power), i128::checked_mul).expect("every product fits 128 bits");
        if self.adds {
            amount
        } else {
            -amount
        }
    }
}

impl Factor {
    fn read(word: &str) -> Factor {
        match word {
            "Q" => Factor::Q,
            "A" => Factor::A,
            "B" => Factor::B,
            "k" => Factor::K,
            "f" => Factor::F,
            _ => match word.strip_prefix('(').and_then(|inside| inside.strip_suffix("-B)")) {
                Some(whole) => Factor::RestOfB(number(whole).into()),
                None => Factor::Figure(number(word).into()),
            },
        }
    }

    fn value(&self, parameter: u8, line: &Line, stated: &Stated) -> i128 {
        match self {
            Factor::Q => line.quantity.into(),
            Factor::A => line.a.into(),
            Factor::B => line.b.into(),
            Factor::RestOfB(whole) => whole - i128::from(line.b),
            Factor::Figure(figure) => *figure,
            Factor::K => stated.k[usize::from(line.code) - 1],
            Factor::F => stated.f[usize::from(parameter) - 1],
        }
    }
}

fn gas_called(name: &str) -> Gas {
    match name {
        "CO2" => Gas::Co2,
        "CH4" => Gas::Ch4,
        "N2O" => Gas::N2o,
        _ => panic!("no gas: {name:?}"),
    }
}
