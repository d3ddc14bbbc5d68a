//! Lookups: tests 1 to 4 of each register given, and the name's place. No order is wanted, so repeats are found by a hash.

use crate::fields::{u16_at, u32_at};
use crate::layout::{MOST_SOURCES, NAME_LENGTH, NAME_OFFSET, NUMBER, SOURCES_AT};
use crate::register::{SourceEntry, Table};

/// So few sources do not pay for clearing a table for the most there may be.
const FEW: usize = 16;

/// A register that tests 1 to 4 accept.
pub fn accepted(register: &[u8]) -> Option<Table<'_>> {
    let table = Table::read(register).ok()?;
    let repeats = if table.sources.len() <= FEW {
        has_repeats(table.sources, &mut [0; 2 * FEW])
    } else {
        has_repeats(table.sources, &mut [0; 2 * MOST_SOURCES])
    };
    (!repeats).then_some(table)
}

/// Whether a number stands twice, by a table of twice as many places, a power of two, 0 being free.
fn has_repeats<const PLACES: usize>(sources: &[SourceEntry], places: &mut [u32; PLACES]) -> bool {
    for source in sources {
        let number = u32_at(source, NUMBER);
        let mut place = (number.wrapping_mul(0x9E37_79B1) >> (32 - PLACES.trailing_zeros())) as usize % PLACES;
        while places[place] != 0 {
            if places[place] == number {
                return true;
            }
            place = (place + 1) % PLACES;
        }
        places[place] = number;
    }
    false
}

impl Table<'_> {
    /// Offset and length of the name of a number's source.
    pub fn name(&self, number: u32) -> Option<(u64, u64)> {
        let source = self.sources.iter().find(|source| u32_at(source, NUMBER) == number)?;
        let names_at = SOURCES_AT + self.sources.as_flattened().len() + self.lines.as_flattened().len();
        Some((names_at as u64 + u64::from(u32_at(source, NAME_OFFSET)), u64::from(u16_at(source, NAME_LENGTH))))
    }
}

/// Which of two registers alone holds a number, and where.
pub fn of_two(plant: &[u8], contractor: &[u8], number: u32) -> Option<(u32, (u64, u64))> {
    let (plant, contractor) = (accepted(plant)?, accepted(contractor)?);
    match (plant.name(number), contractor.name(number)) {
        (Some(name), None) => Some((1, name)),
        (None, Some(name)) => Some((2, name)),
        _ => None,
    }
}
