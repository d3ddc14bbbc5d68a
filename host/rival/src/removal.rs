//! Removal: a check, a search by halves, and two copies.

use crate::fields::u64_at;
use crate::layout::{report_length, ENTRIES_AT, ENTRY_LENGTH, FIGURES_AT, FIGURE_LENGTH};
use crate::report::{number_of, put_header, well_formed};
use crate::{room, Refusal};

pub fn removed(report: &[u8], number: u32, result: &mut [u8]) -> Result<usize, Refusal> {
    let whole = well_formed(report, 1)?;
    let index = whole.entries.binary_search_by_key(&number, number_of).map_err(|_| (13, u64::from(number)))?;
    let count = whole.entries.len() - 1;
    let result = room(result, report_length(count))?;
    let gone = &whole.entries[index];
    let totals = std::array::from_fn(|figure| whole.totals[figure] - u64_at(gone, FIGURES_AT + FIGURE_LENGTH * figure));
    let (header, entries) = result.split_first_chunk_mut::<ENTRIES_AT>().expect("a report has a header");
    put_header(header, whole.year, count, &totals);
    let entries = entries.as_chunks_mut::<ENTRY_LENGTH>().0;
    entries[..index].copy_from_slice(&whole.entries[..index]);
    entries[index..].copy_from_slice(&whole.entries[index + 1..]);
    Ok(result.len())
}
