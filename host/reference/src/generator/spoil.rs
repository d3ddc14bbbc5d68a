//! Fields of bytes, spoilt as far as the bytes still reach.

use super::random::Random;
use crate::bytes::number_at;

/// Puts a number over a field.
pub fn put(bytes: &mut [u8], place: usize, width: usize, number: u64) {
    let field = bytes.iter_mut().skip(place).take(width);
    for (byte, value) in field.zip(number.to_le_bytes()) {
        *byte = value;
    }
}

/// Moves a number one up or one down.
pub fn move_by_one(bytes: &mut [u8], place: usize, width: usize, random: &mut Random) {
    if place + width <= bytes.len() {
        let number = number_at(bytes, place, width);
        let step = random.pick(&[1, u64::MAX]);
        put(bytes, place, width, number.wrapping_add(step));
    }
}

/// Cuts, lengthens or changes bytes without a plan.
pub fn at_random(mut bytes: Vec<u8>, random: &mut Random) -> Vec<u8> {
    match random.below(4) {
        0 => bytes.truncate(random.index(bytes.len() + 1)),
        1 => bytes.extend(random.bytes_below(50)),
        _ => {
            for _ in 0..=random.below(3) {
                let place = random.index(bytes.len().max(1));
                put(&mut bytes, place, 1, random.number());
            }
        }
    }
    bytes
}
