//! How document 01 lays out registers and reports, and document 02 stock cards: limits, lengths and places, each stated
//! once, and what follows from them.

use std::ops::RangeInclusive;

use crate::masses::{MOST_EQUIVALENT, WARMING};

/// "year | 1990 to 2100", of a register and of a report.
pub const YEARS: RangeInclusive<u64> = 1990..=2100;

/// "sources n | 0 to 512"; of a report "n at most 512".
pub const MOST_SOURCES: usize = 512;

/// "lines m | 0 to 1,024"
pub const MOST_LINES: usize = 1_024;

/// "name bytes t | 0 to 16,384"
pub const MOST_NAME_BYTES: usize = 16_384;

/// "name length (2, 1 to 64)"
pub const NAME_LENGTHS: RangeInclusive<u64> = 1..=64;

/// "layout | 1", of a register.
pub const REGISTER_LAYOUT: u64 = 1;

/// "offset of sources | 32": where a register's header ends.
pub const SOURCES_AT: usize = 32;

/// "Source entry, 16 bytes"
pub const SOURCE_LENGTH: usize = 16;

/// "Line, 20 bytes"
pub const LINE_LENGTH: usize = 20;

/// "whole length | 32 + 16n + 20m + t", at its largest.
pub const MOST_REGISTER_LENGTH: usize = line_at(MOST_SOURCES, MOST_LINES) + MOST_NAME_BYTES;

/// "layout 1", of a report.
pub const REPORT_LAYOUT: u64 = 1;

/// "methods 1 to 6"
pub const METHODS: RangeInclusive<u64> = 1..=6;

/// CO2, CH4 and N2O, in this order.
pub const GASES: usize = 3;

/// "CO2, CH4, N2O, CO2-equivalent (8 each)", of an entry and in the totals: the gases, and the equivalent last.
pub const FIGURES: usize = GASES + 1;
pub const FIGURE_LENGTH: usize = 8;

/// Where the totals begin in a report, and the figures in an entry: with them the header and the entry end.
pub const TOTALS_AT: usize = 24;
pub const FIGURES_AT: usize = 8;

/// "offset of entries 56"
pub const ENTRIES_AT: usize = total_at(FIGURES);

/// "Entries are 40 bytes"
pub const ENTRY_LENGTH: usize = figure_at(FIGURES);

/// The length of the longest report.
pub const MOST_REPORT_LENGTH: usize = report_length(MOST_SOURCES);

/// No text is longer: the line of the totals and the lines of the most entries, each field as wide as it can be by
/// itself. All of them at once cannot be, so every text is shorter.
pub const MOST_TEXT_LENGTH: usize = widest_line([*YEARS.end(), MOST_SOURCES as u64], MOST_SOURCES)
    + MOST_SOURCES * widest_line([u32::MAX as u64, *METHODS.end()], 1);

/// "Up to 1,024 cards are worked out in a call of their own"
pub const MOST_CARDS: usize = 1_024;

/// "cards of four entries", "Entries are 8-byte numbers"
pub const CARD_ENTRIES: usize = 4;
pub const CARD_ENTRY_LENGTH: usize = 8;
pub const CARD_LENGTH: usize = CARD_ENTRY_LENGTH * CARD_ENTRIES;

/// "amounts written in card order, 8 bytes each"
pub const AMOUNT_LENGTH: usize = 8;

/// The lengths of the most cards and of their amounts.
pub const MOST_CARDS_LENGTH: usize = card_at(MOST_CARDS);
pub const MOST_AMOUNTS_LENGTH: usize = amounts_length(MOST_CARDS);

/// Where a source entry begins in a register.
pub const fn source_at(index: usize) -> usize {
    SOURCES_AT + SOURCE_LENGTH * index
}

/// Where a line begins in a register of so many sources; behind the last line stand the names.
pub const fn line_at(sources: usize, index: usize) -> usize {
    source_at(sources) + LINE_LENGTH * index
}

/// Where a total begins in a report.
pub const fn total_at(figure: usize) -> usize {
    TOTALS_AT + FIGURE_LENGTH * figure
}

/// Where an entry begins in a report.
pub const fn entry_at(index: usize) -> usize {
    ENTRIES_AT + ENTRY_LENGTH * index
}

/// Where a figure begins in an entry.
pub const fn figure_at(figure: usize) -> usize {
    FIGURES_AT + FIGURE_LENGTH * figure
}

/// "whole length 56 + 40n"
pub const fn report_length(entries: usize) -> usize {
    entry_at(entries)
}

/// Where a card begins.
pub const fn card_at(index: usize) -> usize {
    CARD_LENGTH * index
}

/// The length of the amounts of so many cards.
pub const fn amounts_length(cards: usize) -> usize {
    AMOUNT_LENGTH * cards
}

/// The bytes of a text's line: its two fields in front, then the largest figures that so many sources come to.
const fn widest_line(front: [u64; 2], sources: usize) -> usize {
    let most = sources as u128 * MOST_EQUIVALENT;
    let mut length = field_width(front[0] as u128) + field_width(front[1] as u128) + field_width(most);
    let mut gas = 0;
    while gas < GASES {
        length += field_width(most / WARMING[gas] as u128);
        gas += 1;
    }
    length
}

/// "One space parts fields, a line feed ends each line, numbers are plain decimals": the digits, and the byte behind.
const fn field_width(number: u128) -> usize {
    number.ilog10() as usize + 2
}
