//! Combination: one pass over both reports finds a shared number, one writes.

use std::hint::select_unpredictable;

use crate::layout::{report_length, ENTRIES_AT, ENTRY_LENGTH, MOST_SOURCES};
use crate::report::{number_of, put_header, well_formed, Entry, Report};
use crate::{room, Refusal};

pub fn combined(first: &[u8], second: &[u8], report: &mut [u8]) -> Result<usize, Refusal> {
    let (first, second) = (well_formed(first, 1)?, well_formed(second, 2)?);
    if first.year != second.year {
        return Err((10, 0));
    }
    if let Some(shared) = shared_number(first.entries, second.entries) {
        return Err((11, u64::from(shared)));
    }
    let count = first.entries.len() + second.entries.len();
    if count > MOST_SOURCES {
        return Err((12, count as u64));
    }
    let report = room(report, report_length(count))?;
    write(&first, &second, report);
    Ok(report.len())
}

/// The smallest number that stands in both. A step goes on in whichever has the smaller number, without a branch.
fn shared_number(first: &[Entry], second: &[Entry]) -> Option<u32> {
    let (mut i, mut j) = (0, 0);
    while i < first.len() && j < second.len() {
        let (one, other) = (number_of(&first[i]), number_of(&second[j]));
        if one == other {
            return Some(one);
        }
        let step = select_unpredictable(one < other, 1, 0);
        i += step;
        j += 1 - step;
    }
    None
}

fn write(first: &Report, second: &Report, report: &mut [u8]) {
    let (header, entries) = report.split_first_chunk_mut::<ENTRIES_AT>().expect("a report has a header");
    let totals = std::array::from_fn(|figure| first.totals[figure] + second.totals[figure]);
    put_header(header, first.year, first.entries.len() + second.entries.len(), &totals);
    let (mut ones, mut others) = (first.entries, second.entries);
    let mut entries = entries.as_chunks_mut::<ENTRY_LENGTH>().0.iter_mut();
    while let ([one, ones_after @ ..], [other, others_after @ ..]) = (ones, others) {
        let Some(entry) = entries.next() else { return };
        if number_of(one) < number_of(other) {
            *entry = *one;
            ones = ones_after;
        } else {
            *entry = *other;
            others = others_after;
        }
    }
    for (entry, left) in entries.zip(ones.iter().chain(others)) {
        *entry = *left;
    }
}
