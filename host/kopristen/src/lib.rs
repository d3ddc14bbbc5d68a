//! Kopristen from Rust: slices in, what was made or the refusal out.
//!
//! Each call is the proved one, from `libkopristen.a`. None allocates, keeps anything or fails in another way than by a
//! refusal, which leaves the buffer as it was; where a call accepts, bytes after the answered length stay.

mod refusal;

pub mod raw;
pub use refusal::Refusal;

/// The most sources of a register and of a report.
pub const MOST_SOURCES: usize = 512;

/// The most lines of a register.
pub const MOST_LINES: usize = 1_024;

/// The most bytes of all names of a register together.
pub const MOST_NAME_BYTES: usize = 16_384;

/// The length of the longest name, in bytes.
pub const LONGEST_NAME: usize = 64;

/// The length of the longest register: a header, the most sources and lines, and the most bytes of names.
pub const MOST_REGISTER_BYTES: usize = 32 + 16 * MOST_SOURCES + 20 * MOST_LINES + MOST_NAME_BYTES;

/// The length of the longest report: a header and the most entries.
pub const MOST_REPORT_BYTES: usize = 56 + 40 * MOST_SOURCES;

/// A bound that no report's text exceeds: 82 bytes for the line of the totals and 76 for each entry's.
pub const MOST_TEXT_BYTES: usize = 82 + 76 * MOST_SOURCES;

/// The most stock cards of a call.
pub const MOST_CARDS: usize = 1_024;

/// The length of the most stock cards, each four numbers of 8 bytes.
pub const MOST_CARDS_BYTES: usize = 32 * MOST_CARDS;

/// The length of the amounts of the most stock cards, each one number of 8 bytes.
pub const MOST_AMOUNTS_BYTES: usize = 8 * MOST_CARDS;

/// Calculates a register's report, and answers its length.
pub fn calculate(register: &[u8], report: &mut [u8]) -> Result<usize, Refusal> {
    raw::calculate(register, report).result()
}

/// Combines two reports of one year, and answers the length of what was written.
pub fn combine(first: &[u8], second: &[u8], report: &mut [u8]) -> Result<usize, Refusal> {
    raw::combine(first, second, report).result()
}

/// Writes a report without the entry of a number, and answers the length of what was written.
pub fn remove(report: &[u8], number: u32, result: &mut [u8]) -> Result<usize, Refusal> {
    raw::remove(report, number, result).result()
}

/// Whether a report is well-formed; its length, where it is.
pub fn check(report: &[u8]) -> Result<usize, Refusal> {
    raw::check(report).result()
}

/// Writes a report as text, and answers the text's length.
pub fn text(report: &[u8], text: &mut [u8]) -> Result<usize, Refusal> {
    raw::text(report, text).result()
}

/// The name of a number's source, where it stands in the register.
pub fn name(register: &[u8], number: u32) -> Option<&[u8]> {
    let part = raw::name(register, number);
    named(register, part.offset, part.length)
}

/// The name of a number's source, where it stands in whichever register alone holds the number.
pub fn name_of_two<'a>(plant: &'a [u8], contractor: &'a [u8], number: u32) -> Option<&'a [u8]> {
    let found = raw::name_of_two(plant, contractor, number);
    let register = if found.which == 1 { plant } else { contractor };
    named(register, found.offset, found.length)
}

/// Works out the amounts of stock cards, and answers the length of what was written. A card has received, dispatched,
/// opening and closing stock; its amount, the quantity of a line, is received less dispatched, plus opening, less
/// closing. All are little-endian numbers of 8 bytes, in thousandths of the card's unit.
pub fn amounts(cards: &[u8], amounts: &mut [u8]) -> Result<usize, Refusal> {
    raw::amounts(cards, amounts).result()
}

/// "Names are never empty", so the empty part is no name.
fn named(register: &[u8], offset: u64, length: u64) -> Option<&[u8]> {
    let (offset, length) = (offset as usize, length as usize);
    (length > 0).then(|| &register[offset..offset + length])
}
