//! "The register": a header of counts and offsets, then source entries, lines, names; refusals 1 to 4.

use std::collections::BTreeSet;

use crate::answers::Refusal;
use crate::bytes::number_at;
use crate::layout::{
    line_at, source_at, LINE_LENGTH, MOST_LINES, MOST_NAME_BYTES, MOST_SOURCES, NAME_LENGTHS, REGISTER_LAYOUT,
    SOURCES_AT, SOURCE_LENGTH, YEARS,
};
use crate::methods;

/// A source entry's fields, as they stand in its bytes.
#[derive(Clone, Copy, Debug, PartialEq, Eq)]
pub struct Source {
    pub number: u32,
    pub method: u8,
    pub parameter: u8,
    pub line_count: u16,
    pub first_line: u16,
    pub name_length: u16,
    pub name_offset: u32,
}

/// A line's fields, as they stand in its bytes.
#[derive(Clone, Copy, Debug, PartialEq, Eq)]
pub struct Line {
    pub kind: u8,
    pub unit: u8,
    pub code: u16,
    pub a: u32,
    pub b: u32,
    pub quantity: u64,
}

/// A register whose header is right: its tables, and its names where they stand in the lent bytes.
#[derive(Clone, Debug)]
pub struct Register<'a> {
    pub year: u16,
    pub sources: Vec<Source>,
    pub lines: Vec<Line>,
    pub names: &'a [u8],
    names_at: usize,
}

/// The four numbers of the header from which the rest of it follows.
struct Counts {
    year: u64,
    sources: u64,
    lines: u64,
    name_bytes: u64,
}

impl Source {
    /// "number (4, ..), method and parameter (1 each, ..), line count (2, ..), first line (2), name length (2, ..), name
    /// offset in the names (4)"
    fn read(entry: &[u8]) -> Source {
        Source {
            number: number_at(entry, 0, 4) as u32,
            method: entry[4],
            parameter: entry[5],
            line_count: number_at(entry, 6, 2) as u16,
            first_line: number_at(entry, 8, 2) as u16,
            name_length: number_at(entry, 10, 2) as u16,
            name_offset: number_at(entry, 12, 4) as u32,
        }
    }

    /// The line, and the name byte, at which the source ends.
    fn lines_end(&self) -> usize {
        usize::from(self.first_line) + usize::from(self.line_count)
    }

    fn name_end(&self) -> usize {
        self.name_offset as usize + usize::from(self.name_length)
    }
}

impl Line {
    /// "kind (1), unit (1), code (2), A (4), B (4), quantity Q (8)"
    fn read(line: &[u8]) -> Line {
        Line {
            kind: line[0],
            unit: line[1],
            code: number_at(line, 2, 2) as u16,
            a: number_at(line, 4, 4) as u32,
            b: number_at(line, 8, 4) as u32,
            quantity: number_at(line, 12, 8),
        }
    }
}

impl Counts {
    fn read(header: &[u8]) -> Counts {
        Counts {
            year: number_at(header, 6, 2),
            sources: number_at(header, 8, 2),
            lines: number_at(header, 10, 2),
            name_bytes: number_at(header, 12, 4),
        }
    }

    /// "offset of lines | 32 + 16n"
    fn lines_at(&self) -> u64 {
        source_at(self.sources as usize) as u64
    }

    /// "offset of names | 32 + 16n + 20m"
    fn names_at(&self) -> u64 {
        line_at(self.sources as usize, self.lines as usize) as u64
    }

    /// "whole length | 32 + 16n + 20m + t"
    fn whole_length(&self) -> u64 {
        self.names_at() + self.name_bytes
    }
}

impl<'a> Register<'a> {
    /// Tests 1 to 4, in their order.
    pub fn read(bytes: &[u8]) -> Result<Register<'_>, Refusal> {
        let register = Register::with_right_header(bytes)?;
        register.test_sources()?;
        register.test_numbers()?;
        Ok(register)
    }

    /// Tests 1 and 2: after them the bytes lent hold every entry, line and name.
    pub fn with_right_header(bytes: &[u8]) -> Result<Register<'_>, Refusal> {
        if bytes.len() < SOURCES_AT {
            return Err(Refusal::new(1, 0));
        }
        if let Some(place) = wrong_header_field(bytes) {
            return Err(Refusal::new(2, place));
        }
        let counts = Counts::read(bytes);
        let lines_at = counts.lines_at() as usize;
        let names_at = counts.names_at() as usize;
        let sources = bytes[SOURCES_AT..lines_at].chunks(SOURCE_LENGTH);
        let lines = bytes[lines_at..names_at].chunks(LINE_LENGTH);
        Ok(Register {
            year: counts.year as u16,
            sources: sources.map(Source::read).collect(),
            lines: lines.map(Line::read).collect(),
            names: &bytes[names_at..],
            names_at,
        })
    }

    /// 3: "a source entry or its name is wrong; lines or name bytes left over", place "first such index; n".
    ///
    /// "The first source begins at line 0 and name byte 0, each next where the one before ended, and the last ends at m
    /// and t."
    fn test_sources(&self) -> Result<(), Refusal> {
        let mut next_line = 0;
        let mut next_name_byte = 0;
        for (index, source) in self.sources.iter().enumerate() {
            let begins_right =
                usize::from(source.first_line) == next_line && source.name_offset as usize == next_name_byte;
            if !begins_right || !self.is_right(source) {
                return Err(Refusal::new(3, index as u64));
            }
            next_line = source.lines_end();
            next_name_byte = source.name_end();
        }
        if next_line == self.lines.len() && next_name_byte == self.names.len() {
            Ok(())
        } else {
            Err(Refusal::new(3, self.sources.len() as u64))
        }
    }

    /// What a source entry has to be by itself. "An entry whose lines or name run past m or t is itself wrong."
    fn is_right(&self, source: &Source) -> bool {
        source.number != 0
            && methods::is_listed(source.method, source.parameter)
            && source.line_count >= 1
            && source.lines_end() <= self.lines.len()
            && NAME_LENGTHS.contains(&source.name_length.into())
            && source.name_end() <= self.names.len()
            && self.name(source).iter().all(|&byte| is_name_byte(byte))
    }

    /// 4: "a number stood earlier in the table", place "index of the first such later entry".
    fn test_numbers(&self) -> Result<(), Refusal> {
        let mut earlier = BTreeSet::new();
        for (index, source) in self.sources.iter().enumerate() {
            if !earlier.insert(source.number) {
                return Err(Refusal::new(4, index as u64));
            }
        }
        Ok(())
    }

    pub fn lines_of(&self, source: &Source) -> &[Line] {
        &self.lines[usize::from(source.first_line)..source.lines_end()]
    }

    pub fn name(&self, source: &Source) -> &'a [u8] {
        &self.names[source.name_offset as usize..source.name_end()]
    }

    /// Where the name of the source with a number stands in the lent bytes: offset and length.
    pub fn name_place(&self, number: u32) -> Option<(u64, u64)> {
        let source = self.sources.iter().find(|s| s.number == number)?;
        let offset = self.names_at as u64 + u64::from(source.name_offset);
        Some((offset, u64::from(source.name_length)))
    }
}

/// 2: "a header field is wrong", place "its first byte": the first in header order.
fn wrong_header_field(bytes: &[u8]) -> Option<u64> {
    let counts = Counts::read(bytes);
    let whole_length = number_at(bytes, 28, 4);
    let fields = [
        (0, &bytes[0..4] == b"GREG"),
        (4, number_at(bytes, 4, 2) == REGISTER_LAYOUT),
        (6, YEARS.contains(&counts.year)),
        (8, counts.sources <= MOST_SOURCES as u64),
        (10, counts.lines <= MOST_LINES as u64),
        (12, counts.name_bytes <= MOST_NAME_BYTES as u64),
        (16, number_at(bytes, 16, 4) == SOURCES_AT as u64),
        (20, number_at(bytes, 20, 4) == counts.lines_at()),
        (24, number_at(bytes, 24, 4) == counts.names_at()),
        (28, whole_length == counts.whole_length() && whole_length == bytes.len() as u64),
    ];
    let wrong = fields.iter().find(|(_, is_right)| !is_right);
    wrong.map(|&(place, _)| place)
}

/// "A name byte is none below 32 and not 127."
fn is_name_byte(byte: u8) -> bool {
    byte >= 32 && byte != 127
}
