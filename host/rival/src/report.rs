//! Reports: whether one is well-formed, its entries where it is, and the header written.

use crate::fields::{put_u64, u16_at, u32_at, u64_at};
use crate::layout::{
    report_length, ENTRIES_AT, ENTRY_LENGTH, FIGURES, FIGURES_AT, FIGURE_LENGTH, METHODS, MOST_SOURCES, REPORT_LAYOUT,
    TOTALS_AT, YEARS,
};
use crate::Refusal;

/// CO2, CH4, N2O and the equivalent, in grams.
pub type Figures = [u64; FIGURES];

pub type Entry = [u8; ENTRY_LENGTH];

/// What a gram of CH4 and one of N2O come to in CO2.
pub const WARMING_OF_CH4: u64 = 25;
pub const WARMING_OF_N2O: u64 = 298;

/// "at most 10^15 g a source"
pub const LIMIT: u64 = 1_000_000_000_000_000;

/// A report that is well-formed.
pub struct Report<'a> {
    pub year: u16,
    pub totals: Figures,
    pub entries: &'a [Entry],
}

pub fn number_of(entry: &Entry) -> u32 {
    u32_at(entry, 0)
}

/// 9, with the place at which the report was lent.
pub fn well_formed(bytes: &[u8], which: u64) -> Result<Report<'_>, Refusal> {
    read(bytes).ok_or((9, which))
}

fn read(bytes: &[u8]) -> Option<Report<'_>> {
    let (header, rest) = bytes.split_first_chunk::<ENTRIES_AT>()?;
    let (year, count) = (u16_at(header, 6), u16_at(header, 8));
    let right = header[..4] == *b"GREP"
        && u16_at(header, 4) == REPORT_LAYOUT
        && YEARS.contains(&year)
        && count <= MOST_SOURCES as u16
        && u16_at(header, 10) == 0
        && u32_at(header, 12) == ENTRIES_AT as u32
        && u32_at(header, 16) as usize == bytes.len()
        && rest.len() == ENTRY_LENGTH * usize::from(count)
        && u32_at(header, 20) == 0;
    let entries = rest.as_chunks().0;
    let totals = figures_at(header, TOTALS_AT);
    (right && sums(entries)? == totals).then_some(Report { year, totals, entries })
}

pub fn figures_at<const N: usize>(record: &[u8; N], place: usize) -> Figures {
    std::array::from_fn(|figure| u64_at(record, place + FIGURE_LENGTH * figure))
}

/// The sums of the entries' figures, if each entry is right.
fn sums(entries: &[Entry]) -> Option<Figures> {
    let mut totals = [0; FIGURES];
    let mut before = 0;
    for entry in entries {
        let front = u64_at(entry, 0);
        let (number, method) = (front as u32, front >> 32);
        let figures @ [co2, ch4, n2o, equivalent] = figures_at(entry, FIGURES_AT);
        let small = co2 <= LIMIT && ch4 <= LIMIT / WARMING_OF_CH4 && n2o <= LIMIT / WARMING_OF_N2O;
        if number <= before || !METHODS.contains(&method) || !small {
            return None;
        }
        if co2 + WARMING_OF_CH4 * ch4 + WARMING_OF_N2O * n2o != equivalent || equivalent > LIMIT {
            return None;
        }
        for (total, figure) in totals.iter_mut().zip(figures) {
            *total += figure;
        }
        before = number;
    }
    Some(totals)
}

pub fn put_header(header: &mut [u8; ENTRIES_AT], year: u16, count: usize, totals: &Figures) {
    let tag = u64::from(u32::from_le_bytes(*b"GREP"));
    put_u64(header, 0, tag | u64::from(REPORT_LAYOUT) << 32 | u64::from(year) << 48);
    put_u64(header, 8, count as u64 | (ENTRIES_AT as u64) << 32);
    put_u64(header, 16, report_length(count) as u64);
    for (figure, &total) in totals.iter().enumerate() {
        put_u64(header, TOTALS_AT + FIGURE_LENGTH * figure, total);
    }
}
