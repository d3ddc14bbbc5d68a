//! Sums whose results are known from outside the program: document 01's "Sums done by hand", and table rows of the
//! source documents that print a carbon content beside its CO2 factor.

use crate::draft::{boiler_line, line, register, source};
use crate::masses::Masses;
use crate::register::Line;

/// A source of one register, and what is known of it.
pub struct Sum {
    pub name: &'static str,
    pub method: u8,
    pub parameter: u8,
    pub lines: Vec<Line>,
    pub known: Known,
}

/// Masses with their equivalent, or the number of the refusal.
#[derive(Clone, Copy, Debug, PartialEq, Eq)]
pub enum Known {
    Grams(Masses, u64),
    Refused(u32),
}

impl Sum {
    /// A register with the sum's source alone.
    pub fn register(&self) -> Vec<u8> {
        let source = source(1, self.method, self.parameter, &self.lines);
        register(2023, vec![source]).bytes()
    }
}

fn sum(name: &'static str, method: u8, parameter: u8, lines: &[Line], known: Known) -> Sum {
    Sum { name, method, parameter, lines: lines.to_vec(), known }
}

fn co2(grams: u64) -> Known {
    let masses = Masses { co2: grams, ..Masses::default() };
    Known::Grams(masses, grams)
}

fn ch4(grams: u64) -> Known {
    Known::Grams(Masses { ch4: grams, ..Masses::default() }, 25 * grams)
}

fn n2o(grams: u64, equivalent: u64) -> Known {
    let masses = Masses { n2o: grams, ..Masses::default() };
    Known::Grams(masses, equivalent)
}

/// A metals line: any unit, code 0, B 10,000; here tonnes.
fn metal(kind: u8, thousandths: u64, content: u32) -> Line {
    line(kind, 1, 0, content, 10_000, thousandths)
}

fn methane(content: u32, share: u32, quantity: u64) -> Line {
    line(2, 2, 0, content, share, quantity)
}

/// "Sums done by hand", in document 01's order.
pub fn by_hand() -> Vec<Sum> {
    [by_hand_carbon(), by_hand_acid(), by_hand_flare()].into_iter().flatten().collect()
}

fn by_hand_carbon() -> Vec<Sum> {
    let gas = |content| line(1, 1, 1, content, 10_000, 1);
    let stocks = [
        metal(10, 100_000, 800_000),
        metal(12, 10_000, 800_000),
        metal(11, 20_000, 500_000),
        metal(13, 15_000, 800_000),
    ];
    let in_and_out = |out| [metal(10, 1_000_000, 900_000), metal(11, 1_000_000, out)];
    let cement = [line(20, 1, 1, 1_000_000, 10_000, 1_000_000), line(21, 1, 1, 900_000, 6_000, 10_000)];
    vec![
        sum("fuel, 800 t of carbon", 1, 0, &[boiler_line()], co2(2_931_200_000)),
        sum("fuel, 114.5 g is 115", 1, 0, &[gas(31_250)], co2(115)),
        sum("fuel, below 114.5 g is 114", 1, 0, &[gas(31_249)], co2(114)),
        sum("metals, in and out with stocks", 3, 0, &stocks, co2(241_824_000)),
        sum("metals, as much out as in", 3, 0, &in_and_out(900_000), co2(0)),
        sum("metals, more out than in", 3, 0, &in_and_out(900_001), Known::Refused(6)),
        sum("cement, carbonate and dust", 5, 0, &cement, co2(438_416_000)),
    ]
}

fn by_hand_acid() -> Vec<Sum> {
    let acid = |quantity| [line(30, 1, 0, 0, 0, quantity)];
    vec![
        sum("acid, parameter 5", 6, 5, &acid(1_000_000), n2o(9_000_000, 2_682_000_000)),
        sum("acid, parameter 6, half a gram", 6, 6, &acid(1_000), n2o(1, 298)),
        sum("acid, parameter 6, below half", 6, 6, &acid(999), n2o(0, 0)),
    ]
}

fn by_hand_flare() -> Vec<Sum> {
    let flare = [line(1, 2, 0, 1_200_000, 50, 100_000), methane(500_000, 50, 100_000)];
    let burnt = Masses { co2: 437_481_600, ch4: 250_000, n2o: 0 };
    let limit = Masses { ch4: 40_000_000_000_000, ..Masses::default() };
    let at = |content| [methane(content, 10_000, 10_000_000_000)];
    vec![
        sum("flare, both kinds", 2, 0, &flare, Known::Grams(burnt, 443_731_600)),
        sum("flare, equivalent 10^15", 2, 0, &at(4_000_000), Known::Grams(limit, 1_000_000_000_000_000)),
        sum("flare, equivalent above 10^15", 2, 0, &at(4_000_001), Known::Refused(7)),
    ]
}

/// One unit of a fuel, Q 1000 and B 10,000: name, unit, code, A, and the grams of CO2 that round to the printed factor.
const FUELS: [(&str, u8, u16, u32, u64); 14] = [
    ("blast furnace gas, thousand m3", 2, 1, 260_500, 954_472),
    ("converter gas, thousand m3", 2, 1, 512_000, 1_875_968),
    ("ferromanganese gas, thousand m3", 2, 1, 494_900, 1_813_314),
    ("blast furnace gas, t", 1, 1, 200_400, 734_266),
    ("blast furnace gas, foundry iron, t", 1, 1, 183_800, 673_443),
    ("ferrosilicon gas, t", 1, 1, 362_100, 1_326_734),
    ("crude oil, TJ", 4, 2, 20_000_000, 73_280_000),
    ("coke, TJ", 4, 3, 29_200_000, 106_988_800),
    ("Karaganda coal, TJ", 4, 3, 25_700_000, 94_164_800),
    ("Chita coal, TJ", 4, 3, 27_000_000, 98_928_000),
    ("liquefied gas, TJ", 4, 1, 15_400_000, 56_425_600),
    ("blast furnace gas, standard fuel", 3, 1, 2_080_000, 7_621_120),
    ("fuel oil, standard fuel", 3, 2, 620_000, 2_271_680),
    ("peat, standard fuel", 3, 3, 850_000, 3_114_400),
];

/// Rows of the source documents' tables.
pub fn printed() -> Vec<Sum> {
    let fuels = FUELS.iter().map(|&(name, unit, code, content, grams)| {
        let burnt = line(1, unit, code, content, 10_000, 1_000);
        sum(name, 1, 0, &[burnt], co2(grams))
    });
    let calcite = line(20, 1, 1, 1_000_000, 10_000, 1_000);
    let acid = line(30, 1, 0, 0, 0, 1_000);
    let factors = [
        sum("CaCO3, t", 5, 0, &[calcite], co2(440_000)),
        sum("acid at high pressure, t", 6, 5, &[acid], n2o(9_000, 2_682_000)),
    ];
    fuels.chain(factors).collect()
}

/// Sums that are rounded once, and would be others if each line were rounded.
pub fn rounding() -> Vec<Sum> {
    let fuel = |content| line(1, 1, 3, content, 10_000, 1);
    let carbon = |kind, content| metal(kind, 1, content);
    let calcite = |b| line(20, 1, 1, 1_000_000, b, 1);
    let gas = |content| line(2, 1, 0, content, 10_000, 1);
    let acid = |quantity| line(30, 1, 0, 0, 0, quantity);
    let flare = [line(1, 2, 0, 900_000, 50, 7), line(2, 1, 0, 300_000, 9, 11)];
    let flared = Masses { co2: 22_968, ch4: 3, n2o: 0 };
    let (quarter, less) = (carbon(10, 15_625), carbon(11, 15_625));
    vec![
        sum("57.25 g twice is 115", 3, 0, &[quarter; 2], co2(115)),
        sum("114.5 g three times is 344", 1, 0, &[fuel(31_250); 3], co2(344)),
        sum("0.4 g twice is 1", 1, 0, &[fuel(109); 2], co2(1)),
        sum("171.75 g less 57.25 g is 115", 3, 0, &[quarter, quarter, quarter, less], co2(115)),
        sum("343.5 g less 57.25 g is 286", 3, 0, &[carbon(10, 93_750), less], co2(286)),
        sum("calcite, 5.5 g is 6", 5, 0, &[calcite(125)], co2(6)),
        sum("calcite, 5.456 g is 5", 5, 0, &[calcite(124)], co2(5)),
        sum("methane, half a gram is 1", 2, 0, &[gas(500)], ch4(1)),
        sum("methane, under half a gram is 0", 2, 0, &[gas(499)], ch4(0)),
        sum("methane, a quarter gram twice is 1", 2, 0, &[gas(250); 2], ch4(1)),
        sum("a flare's kinds, other share and quantity", 2, 0, &flare, Known::Grams(flared, 23_043)),
        sum("acid 2, 2.5 g is 3", 6, 2, &[acid(1)], n2o(3, 894)),
        sum("acid 4, 7.5 g twice is 15", 6, 4, &[acid(1); 2], n2o(15, 4_470)),
        sum("acid 6, half a gram in two lines is 1", 6, 6, &[acid(999), acid(1)], n2o(1, 298)),
    ]
}

/// Every carbonate, a tonne of which a quarter stays in the dust, and every acid plant at the largest quantity.
pub fn factors() -> Vec<Sum> {
    let carbonates = [("CaCO3", 330_000), ("MgCO3", 391_500), ("CaMg(CO3)2", 357_750), ("FeCO3", 285_000)];
    let acids = ["acid 1", "acid 2", "acid 3", "acid 4", "acid 5", "acid 6"];
    let grams_of_n2o = [20_000_000_000, 25_000_000_000, 50_000_000_000, 75_000_000_000, 90_000_000_000, 5_000_000];
    let kiln = |(index, &(name, grams))| {
        let code = 1 + index as u16;
        let lines = [line(20, 1, code, 1_000_000, 10_000, 1_000), line(21, 1, code, 1_000_000, 7_500, 1_000)];
        sum(name, 5, 0, &lines, co2(grams))
    };
    let plant = |(index, (&name, &grams))| {
        let lines = [line(30, 1, 0, 0, 0, 10_000_000_000)];
        sum(name, 6, 1 + index as u8, &lines, n2o(grams, 298 * grams))
    };
    let other = sum("cement, carbon other than fuel", 5, 0, &[line(22, 1, 0, 2_000, 10_000, 1_000)], co2(7_328));
    let kilns = carbonates.iter().enumerate().map(kiln);
    kilns.chain(acids.iter().zip(&grams_of_n2o).enumerate().map(plant)).chain([other]).collect()
}
