//! A register's tests 1 to 3, and its tables where they have passed.

use crate::fields::{u16_at, u32_at};
use crate::layout::{
    FIRST_LINE, LINE_COUNT, LINE_LENGTH, METHOD, MOST_LINES, MOST_NAME_BYTES, MOST_NAME_LENGTH, MOST_SOURCES,
    NAME_LENGTH, NAME_OFFSET, NUMBER, PARAMETER, REGISTER_LAYOUT, SOURCES_AT, SOURCE_LENGTH, YEARS,
};
use crate::Refusal;

pub type SourceEntry = [u8; SOURCE_LENGTH];
pub type Line = [u8; LINE_LENGTH];

/// The parts of a register whose header is right.
pub struct Table<'a> {
    pub year: u16,
    pub sources: &'a [SourceEntry],
    pub lines: &'a [Line],
    pub names: &'a [u8],
}

impl<'a> Table<'a> {
    /// Tests 1 to 3.
    pub fn read(register: &'a [u8]) -> Result<Table<'a>, Refusal> {
        let Some((header, rest)) = register.split_first_chunk::<SOURCES_AT>() else { return Err((1, 0)) };
        let (sources, lines) = (usize::from(u16_at(header, 8)), usize::from(u16_at(header, 10)));
        test_header(header, register.len())?;
        let (sources, rest) = rest.split_at(SOURCE_LENGTH * sources);
        let (lines, names) = rest.split_at(LINE_LENGTH * lines);
        let table =
            Table { year: u16_at(header, 6), sources: sources.as_chunks().0, lines: lines.as_chunks().0, names };
        table.test_sources()?;
        Ok(table)
    }

    fn test_sources(&self) -> Result<(), Refusal> {
        let (mut line, mut byte) = (0, 0);
        for (index, source) in self.sources.iter().enumerate() {
            let lines_end = line + usize::from(u16_at(source, LINE_COUNT));
            let name_end = byte + usize::from(u16_at(source, NAME_LENGTH));
            let begins_right =
                usize::from(u16_at(source, FIRST_LINE)) == line && u32_at(source, NAME_OFFSET) as usize == byte;
            let name = self.names.get(byte..name_end).unwrap_or(&[]);
            if !begins_right || lines_end > self.lines.len() || !is_sound(source, name) {
                return Err((3, index as u64));
            }
            (line, byte) = (lines_end, name_end);
        }
        if (line, byte) == (self.lines.len(), self.names.len()) {
            Ok(())
        } else {
            Err((3, self.sources.len() as u64))
        }
    }
}

fn test_header(header: &[u8; SOURCES_AT], lent: usize) -> Result<(), Refusal> {
    let (sources, lines, name_bytes) = (u16_at(header, 8), u16_at(header, 10), u32_at(header, 12));
    let lines_at = SOURCES_AT as u32 + SOURCE_LENGTH as u32 * u32::from(sources);
    let names_at = lines_at + LINE_LENGTH as u32 * u32::from(lines);
    let right = [
        (0, header[..4] == *b"GREG"),
        (4, u16_at(header, 4) == REGISTER_LAYOUT),
        (6, YEARS.contains(&u16_at(header, 6))),
        (8, sources <= MOST_SOURCES as u16),
        (10, lines <= MOST_LINES as u16),
        (12, name_bytes <= MOST_NAME_BYTES as u32),
        (16, u32_at(header, 16) == SOURCES_AT as u32),
        (20, u32_at(header, 20) == lines_at),
        (24, u32_at(header, 24) == names_at),
        (28, u32_at(header, 28) == names_at.wrapping_add(name_bytes) && u32_at(header, 28) as usize == lent),
    ];
    match right.iter().find(|(_, right)| !right) {
        Some(&(place, _)) => Err((2, place)),
        None => Ok(()),
    }
}

/// What an entry has to be by itself; a name that runs past the names was handed over empty.
fn is_sound(source: &SourceEntry, name: &[u8]) -> bool {
    u32_at(source, NUMBER) != 0
        && is_listed(source[METHOD], source[PARAMETER])
        && u16_at(source, LINE_COUNT) != 0
        && (1..=MOST_NAME_LENGTH).contains(&name.len())
        && !has_bad_byte(name)
}

/// A bit for each parameter that is listed with a method.
const LISTED: [u8; 8] = [0, 1, 1, 1, 0b111_1110, 1, 0b111_1110, 0];

fn is_listed(method: u8, parameter: u8) -> bool {
    method < 8 && parameter < 8 && LISTED[usize::from(method)] >> parameter & 1 == 1
}

/// Eight bytes at a time, the last eight once more where they do not come out even.
fn has_bad_byte(name: &[u8]) -> bool {
    let Some(last) = name.last_chunk::<8>() else {
        return name.iter().any(|&byte| byte < 32 || byte == 127);
    };
    let words = name.as_chunks::<8>().0.iter().chain([last]);
    words.fold(0, |bad, &word| bad | bad_bytes(u64::from_le_bytes(word))) != 0
}

/// The highest bit of each byte that is below 32, or 127.
fn bad_bytes(word: u64) -> u64 {
    const HIGH: u64 = 0x8080_8080_8080_8080;
    const EACH: u64 = 0x0101_0101_0101_0101;
    let low = word & !HIGH;
    // 96 more sets the high bit of a byte from 32 up, 1 more that of 127.
    (!(low + 96 * EACH) | (low + EACH)) & !word & HIGH
}
