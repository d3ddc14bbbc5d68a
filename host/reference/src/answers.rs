//! "Refusal numbers": what a call answers, and what it leaves in the buffer lent to it.

/// The refusal table goes from 1 to this number.
pub const LAST_REFUSAL: u32 = 15;

/// A row of the refusal table that applies, and its place.
#[derive(Clone, Copy, Debug, PartialEq, Eq)]
pub struct Refusal {
    pub number: u32,
    pub place: u64,
}

impl Refusal {
    pub fn new(number: u32, place: u64) -> Refusal {
        Refusal { number, place }
    }
}

/// "Calculation, combining, removal and the report check answer number, place and length."
#[derive(Clone, Copy, Debug, PartialEq, Eq)]
pub struct Answer {
    pub number: u32,
    pub place: u64,
    pub length: u64,
}

impl Answer {
    /// "Acceptance is 0, place 0 and the report's length."
    pub fn accepted(length: usize) -> Answer {
        Answer { number: 0, place: 0, length: length as u64 }
    }

    /// "A refusal has length 0."
    pub fn refused(refusal: Refusal) -> Answer {
        Answer { number: refusal.number, place: refusal.place, length: 0 }
    }
}

/// Ends a call that writes: 8 is the last test of each. "A refusal .. writes nothing", and after acceptance "bytes after
/// that length stay".
pub fn deliver(result: Result<Vec<u8>, Refusal>, buffer: &mut [u8]) -> Answer {
    match result.and_then(|bytes| fitting(bytes, buffer.len())) {
        Ok(bytes) => {
            buffer[..bytes.len()].copy_from_slice(&bytes);
            Answer::accepted(bytes.len())
        }
        Err(refusal) => Answer::refused(refusal),
    }
}

/// 8: "report buffer too short", place "length needed".
fn fitting(bytes: Vec<u8>, room: usize) -> Result<Vec<u8>, Refusal> {
    if bytes.len() <= room {
        Ok(bytes)
    } else {
        Err(Refusal::new(8, bytes.len() as u64))
    }
}
