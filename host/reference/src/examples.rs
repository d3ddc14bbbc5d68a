//! Registers and stock cards for people to look at and to try the programs on.

use crate::cards::Card;
use crate::draft::{boilers, card, cards, line, register, source, Draft, DraftSource};
use crate::register::Line;

/// The registers and their file names.
pub fn all() -> [(&'static str, Vec<u8>); 2] {
    [("two-boilers", boilers(&[8, 7]).bytes()), ("every-method", every_method().bytes())]
}

/// Stock cards of the works with every method, each with what it is of, which its bytes do not say. The amounts of the
/// first three are quantities of that register.
pub const STORES: [(&str, Card); 6] = [
    ("natural gas, thousand m3; Q of line 15 of every-method", card(5_412_350, 412_350, 0, 0)),
    ("coal, t; Q of line 4 of every-method", card(1_240_000, 35_000, 310_000, 515_000)),
    ("limestone, t; Q of line 30 of every-method", card(1_212_500_000, 0, 86_000_000, 98_500_000)),
    ("heavy oil, t", card(2_150_000, 0, 380_500, 412_750)),
    ("coke, t; more dispatched than received", card(120_000, 260_000, 415_000, 95_000)),
    ("scrap, t; none consumed", card(64_200, 18_700, 120_300, 165_800)),
];

/// The bytes of those cards.
pub fn stores() -> Vec<u8> {
    cards(&STORES.map(|(_, card)| card))
}

/// A works with every method, parameter and kind, and every unit and carbonate.
fn every_method() -> Draft {
    let sources = [fuels(), flares(), metals(), petrochemicals(), cement(), acid()];
    register(2023, sources.into_iter().flatten().collect())
}

/// A carbon line of code 0 and B 10,000, as metals and petrochemicals have it.
fn carbon(kind: u8, unit: u8, content: u32, quantity: u64) -> Line {
    line(kind, unit, 0, content, 10_000, quantity)
}

fn fuels() -> Vec<DraftSource> {
    let natural_gas = line(1, 4, 1, 14_847_162, 10_000, 330_800);
    let blast_furnace_gas = line(1, 2, 1, 260_500, 10_000, 12_000_000);
    let fuel_oil = line(1, 3, 2, 620_000, 10_000, 1_500_000);
    let coal = line(1, 1, 3, 800_000, 9_800, 1_000_000);
    vec![
        source(204, 1, 0, &[natural_gas, fuel_oil]).named(b"Boiler DE-25"),
        source(203, 1, 0, &[natural_gas, fuel_oil]).named(b"Boiler DE-25"),
        source(17, 1, 0, &[coal, blast_furnace_gas]).named(b"Power house"),
    ]
}

fn flares() -> Vec<DraftSource> {
    let field = [line(1, 2, 0, 1_200_000, 50, 100_000), line(2, 2, 0, 500_000, 50, 100_000)];
    let refinery = [line(1, 1, 0, 749_000, 350, 42_000), line(2, 1, 0, 900_000, 350, 42_000)];
    vec![source(31, 2, 0, &field).named(b"Flare, field"), source(32, 2, 0, &refinery).named(b"Flare, refinery")]
}

fn metals() -> Vec<DraftSource> {
    let lines = [
        carbon(10, 1, 43_000, 900_000_000),
        carbon(10, 1, 820_000, 1_350_000),
        carbon(12, 1, 830_000, 410_000),
        carbon(11, 1, 2_500, 850_000_000),
        carbon(13, 1, 830_000, 380_000),
    ];
    vec![source(1, 3, 0, &lines).named(b"Converter shop")]
}

fn petrochemicals() -> Vec<DraftSource> {
    let plants: [(u32, u8, &str, &[Line]); 6] = [
        (46, 1, "Methanol", &[carbon(10, 2, 536_833, 5_000_000), carbon(11, 1, 375_000, 6_500_000)]),
        (
            45,
            2,
            "Ethylene and propylene",
            &[carbon(10, 1, 817_000, 9_000_000), carbon(11, 1, 856_000, 7_000_000), carbon(14, 1, 888_000, 1_200_000)],
        ),
        (44, 3, "Ethylene dichloride", &[carbon(10, 1, 856_000, 800_000), carbon(11, 1, 245_000, 2_700_000)]),
        (43, 4, "Ethylene oxide", &[carbon(10, 1, 856_000, 2_000_000), carbon(11, 1, 545_000, 2_600_000)]),
        (
            42,
            5,
            "Acrylonitrile",
            &[
                carbon(10, 1, 856_300, 1_100_000),
                carbon(11, 1, 666_400, 1_000_000),
                carbon(14, 1, 585_200, 30_000),
                carbon(14, 1, 444_400, 90_000),
            ],
        ),
        (41, 6, "Carbon black", &[carbon(10, 1, 900_000, 3_300_000), carbon(11, 1, 970_000, 1_900_000)]),
    ];
    plants
        .iter()
        .map(|&(number, parameter, name, lines)| source(number, 4, parameter, lines).named(name.as_bytes()))
        .collect()
}

fn cement() -> Vec<DraftSource> {
    let charged = |code, share, quantity| line(20, 1, code, share, 10_000, quantity);
    let dust = |share, calcined, quantity| line(21, 1, 1, share, calcined, quantity);
    let kiln = [
        charged(1, 780_000, 1_200_000_000),
        charged(2, 21_000, 1_200_000_000),
        charged(3, 15_000, 1_200_000_000),
        charged(4, 4_000, 1_200_000_000),
        dust(780_000, 6_000, 9_000_000),
        carbon(22, 1, 2_000, 1_200_000_000),
    ];
    let unmeasured = [charged(1, 1_000_000, 1_000_000), dust(900_000, 10_000, 10_000)];
    vec![source(51, 5, 0, &kiln).named(b"Kiln 1"), source(52, 5, 0, &unmeasured).named(b"Kiln 2, dust not measured")]
}

fn acid() -> Vec<DraftSource> {
    let names: [&[u8]; 6] = [
        b"Acid, non-selective reduction",
        b"Acid, destroyed in the process",
        b"Acid, low pressure",
        b"Acid, medium pressure",
        b"Acid, high pressure",
        b"Acid, catalytic removal",
    ];
    let plant = |(index, name): (usize, &&[u8])| {
        let quantity = 1_000_000 + index as u64;
        source(61 + index as u32, 6, 1 + index as u8, &[line(30, 1, 0, 0, 0, quantity)]).named(name)
    };
    names.iter().enumerate().map(plant).collect()
}
