//! "Refusal numbers": a refusal as an error, with a sentence for each number of the table.

use std::fmt;

use crate::raw::Answer;

/// Why a call was refused. It has left the buffer as it was.
#[derive(Clone, Copy, Debug, PartialEq, Eq)]
pub struct Refusal {
    pub number: u32,
    pub place: u64,
}

impl Answer {
    /// What was accepted has a length: that of what was written, or of the report judged.
    pub fn result(self) -> Result<usize, Refusal> {
        match self.number {
            0 => Ok(self.length as usize),
            number => Err(Refusal { number, place: self.place }),
        }
    }
}

impl fmt::Display for Refusal {
    fn fmt(&self, f: &mut fmt::Formatter) -> fmt::Result {
        let place = self.place;
        match self.number {
            1 => write!(f, "the register is shorter than its 32 bytes of header"),
            2 => write!(f, "the header field at byte {place} is wrong"),
            3 => write!(
                f,
                "source {place}, counted from 0, or its name is wrong; past the last, lines or name bytes are left over"
            ),
            4 => write!(f, "source {place}, counted from 0, has a number that an earlier source has"),
            5 => write!(f, "line {place}, counted from 0, breaks its ranges or is wrong for its method"),
            6 => write!(f, "source {place}, counted from 0, has a CO2 sum below zero"),
            7 => write!(f, "source {place}, counted from 0, has a CO2-equivalent above 10^15 g"),
            8 => write!(f, "the buffer is too short: {place} bytes are needed"),
            9 => write!(f, "report {place} is not well-formed"),
            10 => write!(f, "the years of the reports differ"),
            11 => write!(f, "source number {place} stands in both reports"),
            12 => write!(f, "{place} entries are more than the 512 of a report"),
            13 => write!(f, "the report has no source number {place}"),
            14 if place == 0 => write!(
                f,
                "card 0, counted from 0, has an entry above 10^10, or the bytes are not whole cards or more than 1,024 cards"
            ),
            14 => write!(f, "card {place}, counted from 0, has an entry above 10^10"),
            15 => write!(f, "card {place}, counted from 0, has an amount below zero or above 10^10"),
            number => write!(f, "refused with number {number}, place {place}"),
        }
    }
}

impl std::error::Error for Refusal {}
