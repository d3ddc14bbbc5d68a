//! A report as text: measured first, since a refusal writes nothing, then written two digits at a time.

use crate::fields::u64_at;
use crate::layout::{FIGURES, FIGURES_AT};
use crate::report::{figures_at, well_formed, Entry, Report};
use crate::{room, Refusal};

pub fn written(report: &[u8], text: &mut [u8]) -> Result<usize, Refusal> {
    let report = well_formed(report, 1)?;
    let needed = rows(&report).map(|row| row.iter().map(|&number| digits(number) + 1).sum::<usize>()).sum();
    let mut rest = room(text, needed)?;
    for row in rows(&report) {
        rest = put_row(rest, &row);
    }
    Ok(needed)
}

/// Two numbers and the figures.
type Row = [u64; FIELDS];
const FIELDS: usize = 2 + FIGURES;

fn rows<'a>(report: &'a Report) -> impl Iterator<Item = Row> + 'a {
    let [co2, ch4, n2o, equivalent] = report.totals;
    let head = [u64::from(report.year), report.entries.len() as u64, co2, ch4, n2o, equivalent];
    std::iter::once(head).chain(report.entries.iter().map(row_of))
}

fn row_of(entry: &Entry) -> Row {
    let front = u64_at(entry, 0);
    let [co2, ch4, n2o, equivalent] = figures_at(entry, FIGURES_AT);
    [front & 0xFFFF_FFFF, front >> 32, co2, ch4, n2o, equivalent]
}

/// The powers of ten, 0 in the place of the first, since 0 has a digit too.
const POWERS: [u64; 20] = {
    let mut powers = [0; 20];
    let mut i = 1;
    while i < 20 {
        powers[i] = 10u64.pow(i as u32);
        i += 1;
    }
    powers
};

/// 1,233 / 4,096 is the logarithm of 2, near enough for 64 bits; one comparison puts the guess right.
fn digits(number: u64) -> usize {
    let bits = 64 - (number | 1).leading_zeros();
    let guess = ((bits * 1_233) >> 12) as usize;
    guess + usize::from(number >= POWERS[guess % 20])
}

fn put_row<'a>(mut text: &'a mut [u8], row: &Row) -> &'a mut [u8] {
    for (field, &number) in row.iter().enumerate() {
        let (own, rest) = text.split_at_mut(digits(number) + 1);
        let (after, own) = own.split_last_mut().expect("a field has its separator");
        put_number(own, number);
        *after = if field == FIELDS - 1 { b'\n' } else { b' ' };
        text = rest;
    }
    text
}

/// The two digits of each number below 100.
const PAIRS: [[u8; 2]; 100] = {
    let mut pairs = [[0; 2]; 100];
    let mut i = 0;
    while i < 100 {
        pairs[i] = [b'0' + (i / 10) as u8, b'0' + (i % 10) as u8];
        i += 1;
    }
    pairs
};

fn put_number(text: &mut [u8], mut number: u64) {
    let mut pairs = text.rchunks_exact_mut(2);
    for pair in pairs.by_ref() {
        pair.copy_from_slice(&PAIRS[(number % 100) as usize]);
        number /= 100;
    }
    if let [digit] = pairs.into_remainder() {
        *digit = b'0' + number as u8;
    }
}
