//! "Numbers are unsigned, little-endian."

/// The number in the `width` bytes from `place` on, lowest byte first.
pub fn number_at(bytes: &[u8], place: usize, width: usize) -> u64 {
    let field = &bytes[place..place + width];
    field.iter().rev().fold(0, |number, &byte| number << 8 | u64::from(byte))
}

/// Puts the lowest `width` bytes of a number behind what is there.
pub fn append(bytes: &mut Vec<u8>, width: usize, number: u64) {
    bytes.extend(&number.to_le_bytes()[..width]);
}
