//! Amounts from stock cards: one pass works them out and judges all numbers at once, and what it kept is copied.

use crate::fields::u64_at;
use crate::layout::{AMOUNT_LENGTH, CARD_LENGTH, MOST_CARDS};
use crate::{room, Refusal};

type Card = [u8; CARD_LENGTH];
type Amount = [u8; AMOUNT_LENGTH];

/// Few cards do not pay for clearing the room of the most there may be.
pub fn worked_out(cards: &[u8], amounts: &mut [u8]) -> Result<usize, Refusal> {
    let (cards, rest) = cards.as_chunks();
    if !rest.is_empty() || cards.len() > MOST_CARDS {
        return Err((14, 0));
    }
    match cards.len() {
        0..=16 => worked_out_in::<16>(cards, amounts),
        17..=128 => worked_out_in::<128>(cards, amounts),
        _ => worked_out_in::<MOST_CARDS>(cards, amounts),
    }
}

fn worked_out_in<const ROOM: usize>(cards: &[Card], amounts: &mut [u8]) -> Result<usize, Refusal> {
    let kept = &mut [[0; AMOUNT_LENGTH]; ROOM][..cards.len()];
    if keep_amounts(cards, kept) >> LIMIT_BITS != 0 {
        return Err(first_wrong(cards));
    }
    let amounts = room(amounts, AMOUNT_LENGTH * cards.len())?;
    amounts.copy_from_slice(kept.as_flattened());
    Ok(amounts.len())
}

/// Keeps the amounts, whatever they are, and judges them and all entries together.
fn keep_amounts(cards: &[Card], kept: &mut [Amount]) -> u64 {
    let mut judged = 0;
    for (kept, card) in kept.iter_mut().zip(cards) {
        let amount = amount_of(card);
        judged = entries_of(card).iter().fold(judged | judge(amount), |judged, &entry| judged | judge(entry));
        *kept = amount.to_le_bytes();
    }
    judged
}

/// "at most 10^10", of entries and of amounts, and the bits of that number.
const LIMIT: u64 = 10_000_000_000;
const LIMIT_BITS: u32 = LIMIT.ilog2() + 1;

/// A number with a bit behind those of the limit exactly where the one judged is above the limit: it has such a bit
/// itself, or its sum with what the limit lacks to all of its bits has. Not every machine compares vectors of 64 bits.
fn judge(number: u64) -> u64 {
    const LACKING: u64 = (1 << LIMIT_BITS) - 1 - LIMIT;
    number | number.wrapping_add(LACKING)
}

/// Received, dispatched, opening, closing.
fn entries_of(card: &Card) -> [u64; 4] {
    std::array::from_fn(|entry| u64_at(card, 8 * entry))
}

/// Of entries that are in range; one below zero wraps to a number far above the limit.
fn amount_of(card: &Card) -> u64 {
    let [received, dispatched, opening, closing] = entries_of(card);
    received.wrapping_add(opening).wrapping_sub(dispatched.wrapping_add(closing))
}

/// All entries come before all amounts.
#[cold]
fn first_wrong(cards: &[Card]) -> Refusal {
    let is_above = |number: &u64| *number > LIMIT;
    match cards.iter().position(|card| entries_of(card).iter().any(is_above)) {
        Some(index) => (14, index as u64),
        None => (15, cards.iter().take_while(|card| !is_above(&amount_of(card))).count() as u64),
    }
}
