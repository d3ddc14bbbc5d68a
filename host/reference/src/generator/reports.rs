//! Reports that are well-formed, among them such as no register gives; ways to spoil one; pairs to combine.

use super::random::Random;
use super::registers::numbers;
use super::spoil::{move_by_one, put};
use crate::bytes::number_at;
use crate::layout::{
    entry_at, figure_at, total_at, ENTRIES_AT, ENTRY_LENGTH, FIGURES, FIGURE_LENGTH, GASES, METHODS, MOST_SOURCES,
    REPORT_LAYOUT, YEARS,
};
use crate::masses::{Masses, MOST_EQUIVALENT, WARMING};
use crate::report::{Entry, Report};

pub fn valid(random: &mut Random) -> Report {
    let count = match random.below(32) {
        0..=2 => 0,
        3 => MOST_SOURCES,
        4 => MOST_SOURCES - 1,
        5..=8 => 1,
        _ => 2 + random.index(9),
    };
    let numbers = numbers(random, count);
    of_numbers(random, 2023, &numbers)
}

fn of_numbers(random: &mut Random, year: u16, numbers: &[u32]) -> Report {
    Report::of(year, numbers.iter().map(|&number| entry(random, number)).collect())
}

/// Any method with any masses, up to the limit.
fn entry(random: &mut Random, number: u32) -> Entry {
    let mut room = MOST_EQUIVALENT as u64;
    let mut mass = |warming: u64| {
        let mass = if random.one_in(3) { 0 } else { random.near_ends(0..=room / warming) };
        room -= mass * warming;
        mass
    };
    let [of_co2, of_ch4, of_n2o] = WARMING;
    let (n2o, ch4, co2) = (mass(of_n2o), mass(of_ch4), mass(of_co2));
    Entry { number, method: random.between(METHODS) as u8, masses: Masses { co2, ch4, n2o } }
}

/// Ways to spoil a report of so many entries, at least two; each breaks one condition of a well-formed report.
pub static FAULTS: [fn(&mut Vec<u8>, usize, &mut Random); 24] = [
    // tag, layout, year, count, zero, offset, whole length, zero
    |b, _, r| put(b, r.index(4), 1, u64::from(r.byte() | 0x80)),
    |b, _, r| put(b, 4, 2, r.pick(&[0, REPORT_LAYOUT + 1, REPORT_LAYOUT + 256])),
    |b, _, r| put(b, 6, 2, r.pick(&[0, YEARS.start() - 1, YEARS.end() + 1, 65_535])),
    |b, _, r| put(b, 8, 2, r.pick(&[0, MOST_SOURCES as u64 + 1, 65_535])),
    |b, _, r| move_by_one(b, 8, 2, r),
    |b, _, r| put(b, 10, 2, 1 << r.below(16)),
    |b, _, r| put(b, 12, 4, r.pick(&[0, ENTRIES_AT as u64 - 1, ENTRIES_AT as u64 + 1, ENTRIES_AT as u64 | 1 << 24])),
    |b, _, r| move_by_one(b, 16, 4, r),
    |b, _, r| put(b, 20, 4, 1 << r.below(32)),
    // the bytes lent, and one entry too many
    |b, _, r| b.truncate(r.index(b.len().max(1))),
    |b, _, r| b.extend([&[0], &r.bytes_below(60)[..]].concat()),
    |b, _, r| *b = Report::of(2023, (1..=MOST_SOURCES as u32 + 1).map(|number| entry(r, number)).collect()).bytes(),
    // an entry's number, method and zeros
    |b, n, r| put(b, an_entry(n, r), 4, 0),
    |b, n, r| number_by_the_last(b, n, 0, r),
    |b, n, r| number_by_the_last(b, n, u32::MAX, r),
    |b, n, r| put(b, an_entry(n, r) + 4, 1, r.pick(&[0, METHODS.end() + 1, 255])),
    |b, n, r| put(b, an_entry(n, r) + 5 + r.index(3), 1, 1 + r.below(255)),
    // an equivalent that is not right, above the limit, or right only in 64 bits; the totals are the sums
    |b, n, r| with_sums(b, |b| move_by_one(b, an_entry(n, r) + figure_at(GASES), FIGURE_LENGTH, r)),
    |b, n, r| with_sums(b, |b| move_by_one(b, an_entry(n, r) + figure_at(r.index(GASES)), FIGURE_LENGTH, r)),
    |b, n, r| with_sums(b, |b| put_masses(b, an_entry(n, r), [1_000_000_000_000_001, 0], 1_000_000_000_000_001)),
    |b, n, r| with_sums(b, |b| put_masses(b, an_entry(n, r), [0, 40_000_000_000_001], 1_000_000_000_000_025)),
    |b, n, r| with_sums(b, |b| put_masses(b, an_entry(n, r), [0, 737_869_762_948_382_065], 9)),
    // totals
    |b, _, r| move_by_one(b, total_at(r.index(FIGURES)), FIGURE_LENGTH, r),
    |b, _, r| put(b, total_at(r.index(FIGURES)), FIGURE_LENGTH, r.number() | 1 << 62),
];

/// A report with some faults, one after the other.
pub fn spoilt(random: &mut Random, faults: &[usize]) -> Vec<u8> {
    let count = 2 + random.index(5);
    let numbers = numbers(random, count);
    let mut bytes = of_numbers(random, 2023, &numbers).bytes();
    for &fault in faults {
        FAULTS[fault](&mut bytes, count, random);
    }
    bytes
}

/// The place of some entry.
fn an_entry(count: usize, random: &mut Random) -> usize {
    entry_at(random.index(count))
}

/// A later entry gets the number of the one before it, or another by it.
fn number_by_the_last(bytes: &mut [u8], count: usize, step: u32, random: &mut Random) {
    let place = entry_at(random.index(count - 1));
    if place + 4 <= bytes.len() {
        let number = number_at(bytes, place, 4) as u32;
        put(bytes, place + ENTRY_LENGTH, 4, u64::from(number.wrapping_add(step)));
    }
}

/// An entry gets these masses of CO2 and CH4, none of any other gas, and this equivalent.
fn put_masses(bytes: &mut [u8], entry: usize, [co2, ch4]: [u64; 2], equivalent: u64) {
    let mut figures = [0; FIGURES];
    (figures[0], figures[1], figures[GASES]) = (co2, ch4, equivalent);
    for (figure, number) in figures.into_iter().enumerate() {
        put(bytes, entry + figure_at(figure), FIGURE_LENGTH, number);
    }
}

/// Changes entries, and sets the totals to the sums in 64 bits.
fn with_sums(bytes: &mut [u8], change: impl FnOnce(&mut [u8])) {
    change(bytes);
    for figure in 0..FIGURES {
        let entries = bytes.get(ENTRIES_AT..).unwrap_or(&[]);
        let number_in = |entry| number_at(entry, figure_at(figure), FIGURE_LENGTH);
        let total = entries.chunks_exact(ENTRY_LENGTH).map(number_in).fold(0, u64::wrapping_add);
        put(bytes, total_at(figure), FIGURE_LENGTH, total);
    }
}

/// Two reports to combine: numbers dealt out at random, or all of one before the other's.
pub fn pair(random: &mut Random, turn: u64) -> [Report; 2] {
    let counts = match turn % 16 {
        0 => [MOST_SOURCES / 2, MOST_SOURCES / 2],
        1 => [MOST_SOURCES / 2, MOST_SOURCES / 2 + 1],
        2 => [MOST_SOURCES, 1],
        3 => [0, 0],
        4 => [0, 3],
        5 => [3, 0],
        _ => [1 + random.index(9), 1 + random.index(9)],
    };
    let mut numbers = numbers(random, counts[0] + counts[1]);
    match random.below(4) {
        0 => numbers.sort(),
        1 => numbers.sort_by_key(|&number| std::cmp::Reverse(number)),
        _ => {}
    }
    let (first, second) = numbers.split_at_mut(counts[0]);
    if random.one_in(4) && !first.is_empty() && !second.is_empty() {
        second[0] = first[random.index(first.len())];
    }
    let second_year = if random.one_in(8) { 2024 } else { 2023 };
    [of_numbers(random, 2023, first), of_numbers(random, second_year, second)]
}
