//! How document 01 lays out registers and reports, and document 02 stock cards, stated for this side alone: it shares
//! nothing with the reference.

use std::ops::RangeInclusive;

pub const YEARS: RangeInclusive<u16> = 1990..=2100;
pub const METHODS: RangeInclusive<u64> = 1..=6;
pub const MOST_SOURCES: usize = 512;
pub const MOST_LINES: usize = 1_024;
pub const MOST_NAME_BYTES: usize = 16_384;
pub const MOST_NAME_LENGTH: usize = 64;

// A register: its header ends where the sources begin.
pub const REGISTER_LAYOUT: u16 = 1;
pub const SOURCES_AT: usize = 32;
pub const SOURCE_LENGTH: usize = 16;
pub const LINE_LENGTH: usize = 20;

// Where the fields of a source entry begin.
pub const NUMBER: usize = 0;
pub const METHOD: usize = 4;
pub const PARAMETER: usize = 5;
pub const LINE_COUNT: usize = 6;
pub const FIRST_LINE: usize = 8;
pub const NAME_LENGTH: usize = 10;
pub const NAME_OFFSET: usize = 12;

// A report: its header ends with the totals, an entry with its figures, each CO2, CH4, N2O and the equivalent.
pub const REPORT_LAYOUT: u16 = 1;
pub const FIGURES: usize = 4;
pub const FIGURE_LENGTH: usize = 8;
pub const TOTALS_AT: usize = 24;
pub const ENTRIES_AT: usize = TOTALS_AT + FIGURE_LENGTH * FIGURES;
pub const FIGURES_AT: usize = 8;
pub const ENTRY_LENGTH: usize = FIGURES_AT + FIGURE_LENGTH * FIGURES;

// Stock cards: a card is received, dispatched, opening and closing, 8 bytes each, and an amount as long as one of them.
pub const MOST_CARDS: usize = 1_024;
pub const AMOUNT_LENGTH: usize = 8;
pub const CARD_LENGTH: usize = 4 * AMOUNT_LENGTH;

pub const fn report_length(entries: usize) -> usize {
    ENTRIES_AT + ENTRY_LENGTH * entries
}
