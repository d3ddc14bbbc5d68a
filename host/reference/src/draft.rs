//! Registers and stock cards written out of their parts: for tests, cases, examples and generated inputs.

use crate::bytes::append;
use crate::cards::Card;
use crate::layout::{line_at, source_at, CARD_ENTRY_LENGTH, REGISTER_LAYOUT, SOURCES_AT};
use crate::register::Line;

/// A source as a plant would state it.
#[derive(Clone, Debug, PartialEq, Eq)]
pub struct DraftSource {
    pub number: u32,
    pub method: u8,
    pub parameter: u8,
    pub name: Vec<u8>,
    pub lines: Vec<Line>,
}

/// A register as a year and sources, and lines and name bytes that belong to none.
#[derive(Clone, Debug, Default, PartialEq, Eq)]
pub struct Draft {
    pub year: u16,
    pub sources: Vec<DraftSource>,
    pub lines_left_over: Vec<Line>,
    pub name_bytes_left_over: Vec<u8>,
}

/// A line, in the order of document 01's fields.
pub fn line(kind: u8, unit: u8, code: u16, a: u32, b: u32, quantity: u64) -> Line {
    Line { kind, unit, code, a, b, quantity }
}

/// "Fuel, solid, Q 1,000,000, A 800,000, B 10,000: 2,931,200,000 g."
pub fn boiler_line() -> Line {
    line(1, 1, 3, 800_000, 10_000, 1_000_000)
}

pub fn source(number: u32, method: u8, parameter: u8, lines: &[Line]) -> DraftSource {
    DraftSource { number, method, parameter, name: b"Boiler DE-25".to_vec(), lines: lines.to_vec() }
}

pub fn boiler(number: u32) -> DraftSource {
    source(number, 1, 0, &[boiler_line()])
}

pub fn boilers(numbers: &[u32]) -> Draft {
    let sources = numbers.iter().map(|&number| boiler(number));
    register(2023, sources.collect())
}

pub fn register(year: u16, sources: Vec<DraftSource>) -> Draft {
    Draft { year, sources, ..Draft::default() }
}

impl DraftSource {
    pub fn named(mut self, name: &[u8]) -> DraftSource {
        self.name = name.to_vec();
        self
    }
}

impl Draft {
    pub fn lines(&self) -> Vec<Line> {
        let owned = self.sources.iter().flat_map(|s| s.lines.iter());
        owned.chain(&self.lines_left_over).copied().collect()
    }

    pub fn names(&self) -> Vec<u8> {
        let owned = self.sources.iter().flat_map(|s| s.name.iter());
        owned.chain(&self.name_bytes_left_over).copied().collect()
    }

    /// The register's bytes. Whatever the draft holds, the header and the places of lines and names are right.
    pub fn bytes(&self) -> Vec<u8> {
        let (lines, names) = (self.lines(), self.names());
        let mut bytes = self.header(lines.len(), names.len());
        self.append_sources(&mut bytes);
        for line in &lines {
            append_line(&mut bytes, line);
        }
        bytes.extend(names);
        bytes
    }

    fn header(&self, lines: usize, name_bytes: usize) -> Vec<u8> {
        let lines_at = source_at(self.sources.len());
        let names_at = line_at(self.sources.len(), lines);
        let mut bytes = b"GREG".to_vec();
        append(&mut bytes, 2, REGISTER_LAYOUT);
        append(&mut bytes, 2, u64::from(self.year));
        append(&mut bytes, 2, self.sources.len() as u64);
        append(&mut bytes, 2, lines as u64);
        for number in [name_bytes, SOURCES_AT, lines_at, names_at, names_at + name_bytes] {
            append(&mut bytes, 4, number as u64);
        }
        bytes
    }

    fn append_sources(&self, bytes: &mut Vec<u8>) {
        let mut first_line = 0;
        let mut name_offset = 0;
        for source in &self.sources {
            append(bytes, 4, u64::from(source.number));
            append(bytes, 1, u64::from(source.method));
            append(bytes, 1, u64::from(source.parameter));
            append(bytes, 2, source.lines.len() as u64);
            append(bytes, 2, first_line);
            append(bytes, 2, source.name.len() as u64);
            append(bytes, 4, name_offset);
            first_line += source.lines.len() as u64;
            name_offset += source.name.len() as u64;
        }
    }
}

fn append_line(bytes: &mut Vec<u8>, line: &Line) {
    append(bytes, 1, u64::from(line.kind));
    append(bytes, 1, u64::from(line.unit));
    append(bytes, 2, u64::from(line.code));
    append(bytes, 4, u64::from(line.a));
    append(bytes, 4, u64::from(line.b));
    append(bytes, 8, line.quantity);
}

/// A stock card, in the order of document 02's entries.
pub const fn card(received: u64, dispatched: u64, opening: u64, closing: u64) -> Card {
    Card { received, dispatched, opening, closing }
}

/// The bytes of stock cards.
pub fn cards(cards: &[Card]) -> Vec<u8> {
    let mut bytes = vec![];
    for entry in cards.iter().flat_map(Card::entries) {
        append(&mut bytes, CARD_ENTRY_LENGTH, entry);
    }
    bytes
}

/// The bytes with a number of `width` bytes put over what stood at a place.
pub fn edited(bytes: &[u8], place: usize, width: usize, number: u64) -> Vec<u8> {
    let mut bytes = bytes.to_vec();
    bytes[place..place + width].copy_from_slice(&number.to_le_bytes()[..width]);
    bytes
}
