//! "The report": its bytes, what is well-formed, its text.

use crate::bytes::{append, number_at};
use crate::layout::{
    figure_at, report_length, ENTRIES_AT, ENTRY_LENGTH, FIGURES, FIGURES_AT, FIGURE_LENGTH, METHODS, MOST_SOURCES,
    REPORT_LAYOUT, TOTALS_AT, YEARS,
};
use crate::masses::{Masses, MOST_EQUIVALENT};

#[derive(Clone, Copy, Debug, PartialEq, Eq)]
pub struct Entry {
    pub number: u32,
    pub method: u8,
    pub masses: Masses,
}

#[derive(Clone, Debug, PartialEq, Eq)]
pub struct Report {
    pub year: u16,
    pub entries: Vec<Entry>,
}

impl Report {
    /// "Entries are .. ascending by source number."
    pub fn of(year: u16, mut entries: Vec<Entry>) -> Report {
        entries.sort_by_key(|entry| entry.number);
        Report { year, entries }
    }

    /// "the totals of CO2, CH4, N2O and CO2-equivalent"
    fn totals(&self) -> [u128; FIGURES] {
        let mut totals = [0; FIGURES];
        for entry in &self.entries {
            let masses = entry.masses.with_equivalent();
            for (total, mass) in totals.iter_mut().zip(masses) {
                *total += mass;
            }
        }
        totals
    }

    /// "Every report starts with the four bytes GREP. Then: layout 1 (2), year (2), count n (2), zero (2), offset of
    /// entries 56 (4), whole length 56 + 40n (4), zero (4), and the totals of CO2, CH4, N2O and CO2-equivalent (8 each)."
    pub fn bytes(&self) -> Vec<u8> {
        let mut bytes = b"GREP".to_vec();
        append(&mut bytes, 2, REPORT_LAYOUT);
        append(&mut bytes, 2, u64::from(self.year));
        append(&mut bytes, 2, self.entries.len() as u64);
        append(&mut bytes, 2, 0);
        append(&mut bytes, 4, ENTRIES_AT as u64);
        append(&mut bytes, 4, report_length(self.entries.len()) as u64);
        append(&mut bytes, 4, 0);
        append_figures(&mut bytes, self.totals());
        for entry in &self.entries {
            entry.append_to(&mut bytes);
        }
        bytes
    }

    /// The report that well-formed bytes hold; nothing where the bytes are not well-formed.
    pub fn read(bytes: &[u8]) -> Option<Report> {
        if bytes.len() < ENTRIES_AT || !is_header_right(bytes) {
            return None;
        }
        let entries = bytes[ENTRIES_AT..].chunks(ENTRY_LENGTH);
        if !entries.clone().all(is_entry_right) {
            return None;
        }
        let report = Report { year: number_at(bytes, 6, 2) as u16, entries: entries.map(Entry::read).collect() };
        let is_right = report.has_ascending_numbers() && report.totals() == figures_at(bytes, TOTALS_AT);
        is_right.then_some(report)
    }

    /// "strictly ascending numbers"
    fn has_ascending_numbers(&self) -> bool {
        let mut neighbours = self.entries.windows(2);
        neighbours.all(|pair| pair[0].number < pair[1].number)
    }

    /// "year, count and the four totals, then one line an entry: number, method, CO2, CH4, N2O, equivalent. .. One
    /// space parts fields, a line feed ends each line, numbers are plain decimals."
    pub fn text(&self) -> Vec<u8> {
        let mut text = text_line([self.year as u128, self.entries.len() as u128], self.totals());
        for entry in &self.entries {
            let named = [u128::from(entry.number), u128::from(entry.method)];
            text += &text_line(named, entry.masses.with_equivalent());
        }
        text.into_bytes()
    }
}

impl Entry {
    /// "number (4), method (1), zero (3), CO2, CH4, N2O, CO2-equivalent (8 each)"
    fn append_to(&self, bytes: &mut Vec<u8>) {
        append(bytes, 4, u64::from(self.number));
        append(bytes, 1, u64::from(self.method));
        append(bytes, 3, 0);
        append_figures(bytes, self.masses.with_equivalent());
    }

    fn read(entry: &[u8]) -> Entry {
        let mass = |gas| number_at(entry, figure_at(gas), FIGURE_LENGTH);
        Entry {
            number: number_at(entry, 0, 4) as u32,
            method: entry[4],
            masses: Masses { co2: mass(0), ch4: mass(1), n2o: mass(2) },
        }
    }
}

/// "has its tag, layout, zeros, offset and length as laid out above, fills its lent bytes exactly, has a year in
/// range, n at most 512"
fn is_header_right(bytes: &[u8]) -> bool {
    let count = number_at(bytes, 8, 2);
    let length = report_length(count as usize) as u64;
    &bytes[0..4] == b"GREP"
        && number_at(bytes, 4, 2) == REPORT_LAYOUT
        && YEARS.contains(&number_at(bytes, 6, 2))
        && count <= MOST_SOURCES as u64
        && number_at(bytes, 10, 2) == 0
        && number_at(bytes, 12, 4) == ENTRIES_AT as u64
        && number_at(bytes, 16, 4) == length
        && bytes.len() as u64 == length
        && number_at(bytes, 20, 4) == 0
}

/// "numbers that are not zero, methods 1 to 6, each equivalent right and at most 10^15", and the entry's zeros
fn is_entry_right(bytes: &[u8]) -> bool {
    let entry = Entry::read(bytes);
    entry.number != 0
        && METHODS.contains(&entry.method.into())
        && number_at(bytes, 5, 3) == 0
        && entry.masses.with_equivalent() == figures_at(bytes, FIGURES_AT)
        && entry.masses.equivalent() <= MOST_EQUIVALENT
}

/// The figures that stand from a place on, in totals as in an entry.
fn figures_at(bytes: &[u8], place: usize) -> [u128; FIGURES] {
    std::array::from_fn(|figure| u128::from(number_at(bytes, place + FIGURE_LENGTH * figure, FIGURE_LENGTH)))
}

fn append_figures(bytes: &mut Vec<u8>, figures: [u128; FIGURES]) {
    for figure in figures {
        append(bytes, FIGURE_LENGTH, figure as u64);
    }
}

fn text_line(front: [u128; 2], figures: [u128; FIGURES]) -> String {
    let fields: Vec<String> = front.iter().chain(&figures).map(|number| number.to_string()).collect();
    fields.join(" ") + "\n"
}
