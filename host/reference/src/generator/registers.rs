//! Registers that calculation accepts: every method, kind and unit, of every size up to the limits.

use std::ops::RangeInclusive;

use super::random::Random;
use crate::draft::{register, Draft, DraftSource};
use crate::layout::{MOST_LINES, MOST_NAME_BYTES, MOST_SOURCES, NAME_LENGTHS, YEARS};
use crate::masses::{masses_of, Unfit};
use crate::methods::{most_a, Row, MOST_QUANTITY, TABLE};
use crate::register::Line;

/// How many sources a register has, and how many lines and name bytes each of them.
struct Size {
    sources: usize,
    lines: RangeInclusive<u64>,
    name_bytes: RangeInclusive<u64>,
}

pub fn valid(random: &mut Random) -> Draft {
    let size = size(random);
    let numbers = numbers(random, size.sources);
    let year = random.near_ends(YEARS) as u16;
    register(year, numbers.into_iter().map(|number| valid_source(random, number, &size)).collect())
}

/// A valid register with some sources, so that a fault finds something to spoil.
pub fn valid_of_some(random: &mut Random) -> Draft {
    let size = Size { sources: 2 + random.index(6), lines: 1..=4, name_bytes: NAME_LENGTHS };
    let numbers = numbers(random, size.sources);
    register(2023, numbers.into_iter().map(|number| valid_source(random, number, &size)).collect())
}

/// A valid register of so many sources with two lines each, so that every size has the same work for a source.
pub fn valid_of(random: &mut Random, sources: usize) -> Draft {
    let size = Size { sources, lines: 2..=2, name_bytes: 12..=12 };
    let numbers = numbers(random, size.sources);
    register(2023, numbers.into_iter().map(|number| valid_source(random, number, &size)).collect())
}

/// Lines and name bytes of each source, where a register has the most of all three.
const LINES_OF_FULL: u64 = (MOST_LINES / MOST_SOURCES) as u64;
const NAME_BYTES_OF_FULL: u64 = (MOST_NAME_BYTES / MOST_SOURCES) as u64;

fn size(random: &mut Random) -> Size {
    let full = |lines, name_bytes| Size { sources: MOST_SOURCES, lines, name_bytes };
    match random.below(64) {
        0 => Size { sources: 0, lines: 1..=1, name_bytes: 1..=1 },
        1 => Size { sources: 1, lines: 1..=MOST_LINES as u64, name_bytes: NAME_LENGTHS },
        2 => full(1..=LINES_OF_FULL, 1..=NAME_BYTES_OF_FULL),
        3 => full(LINES_OF_FULL..=LINES_OF_FULL, NAME_BYTES_OF_FULL..=NAME_BYTES_OF_FULL),
        4 => Size { sources: 100 + random.index(156), lines: 1..=4, name_bytes: NAME_LENGTHS },
        5..=20 => Size { sources: 1, lines: 1..=6, name_bytes: NAME_LENGTHS },
        _ => Size { sources: 2 + random.index(10), lines: 1..=6, name_bytes: NAME_LENGTHS },
    }
}

/// Different numbers that are not zero, in no order: next to one another, or of any magnitude.
pub fn numbers(random: &mut Random, count: usize) -> Vec<u32> {
    let mut numbers = std::collections::BTreeSet::new();
    let most = random.pick(&[2 * count as u64 + 1, 100_000, u64::from(u32::MAX)]);
    while numbers.len() < count {
        numbers.insert(random.near_ends(1..=most) as u32);
    }
    let mut numbers: Vec<u32> = numbers.into_iter().collect();
    random.shuffle(&mut numbers);
    numbers
}

fn valid_source(random: &mut Random, number: u32, size: &Size) -> DraftSource {
    let row = &TABLE[random.index(TABLE.len())];
    let (method, parameter) = (row.method, random.pick(row.parameters));
    let count = random.near_ends(size.lines.clone());
    let lines = (0..count).map(|_| right_line(random, method, parameter)).collect();
    let name = name(random, size.name_bytes.clone());
    tamed(DraftSource { number, method, parameter, name, lines })
}

/// The kinds of a method that are taken from CO2.
const TAKING: [u8; 4] = [11, 13, 14, 21];

/// The source with smaller quantities, as far as its sum is below zero or its equivalent above the limit.
fn tamed(mut source: DraftSource) -> DraftSource {
    while let Err(unfit) = masses_of(source.method, source.parameter, &source.lines) {
        for line in &mut source.lines {
            if unfit == Unfit::EquivalentAboveLimit || TAKING.contains(&line.kind) {
                line.quantity /= 16;
            }
        }
    }
    source
}

/// A line that a row of the method takes.
fn right_line(random: &mut Random, method: u8, parameter: u8) -> Line {
    let rows: Vec<&Row> =
        TABLE.iter().filter(|row| row.method == method && row.parameters.contains(&parameter)).collect();
    let row = random.pick(&rows);
    let unit = random.pick(row.units);
    Line {
        kind: random.pick(row.kinds),
        unit,
        code: random.near_ends(u64::from(*row.codes.start())..=u64::from(*row.codes.end())) as u16,
        a: random.near_ends(0..=u64::from(*row.a.end().min(&most_a(unit)))) as u32,
        b: random.near_ends(u64::from(*row.b.start())..=u64::from(*row.b.end())) as u32,
        quantity: random.near_ends(0..=MOST_QUANTITY),
    }
}

fn name(random: &mut Random, length: RangeInclusive<u64>) -> Vec<u8> {
    if random.one_in(4) && length.contains(&12) {
        return b"Boiler DE-25".to_vec();
    }
    let length = random.near_ends(length);
    (0..length)
        .map(|_| match random.near_ends(32..=255) as u8 {
            127 => b' ',
            byte => byte,
        })
        .collect()
}
