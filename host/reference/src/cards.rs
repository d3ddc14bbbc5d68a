//! "Amounts from stock cards": a card's entries and its amount, formula 1 of source document 000; refusals 14 and 15.

use std::ops::RangeInclusive;

use crate::answers::Refusal;
use crate::bytes::number_at;
use crate::layout::{CARD_ENTRIES, CARD_ENTRY_LENGTH, CARD_LENGTH, MOST_CARDS_LENGTH};

/// "each at most 10^10"
pub const MOST_ENTRY: u64 = 10_000_000_000;

/// Those that are not "below zero or above 10^10": the quantities that a line may have.
pub const AMOUNTS: RangeInclusive<i128> = 0..=10_000_000_000;

/// "cards of four entries", in "thousandths of the card's unit".
#[derive(Clone, Copy, Debug, PartialEq, Eq)]
pub struct Card {
    pub received: u64,
    pub dispatched: u64,
    pub opening: u64,
    pub closing: u64,
}

impl Card {
    /// "received less dispatched, plus opening, less closing stock. Entries are 8-byte numbers in that order"
    pub fn read(card: &[u8]) -> Card {
        let entry = |index| number_at(card, CARD_ENTRY_LENGTH * index, CARD_ENTRY_LENGTH);
        Card { received: entry(0), dispatched: entry(1), opening: entry(2), closing: entry(3) }
    }

    /// The entries in their order.
    pub fn entries(&self) -> [u64; CARD_ENTRIES] {
        [self.received, self.dispatched, self.opening, self.closing]
    }

    /// "Work out consumption by formula 1 of source document 000: received less dispatched, plus opening, less closing
    /// stock."
    pub fn amount(&self) -> i128 {
        let [received, dispatched, opening, closing] = self.entries().map(i128::from);
        received - dispatched + opening - closing
    }
}

/// The amounts of all cards, in their order: "14 for a broken length or too many cards, place 0; then 14 for an entry
/// out of range, then 15 for an amount below zero or above 10^10, each at the first such card".
pub fn amounts_of(bytes: &[u8]) -> Result<Vec<u64>, Refusal> {
    if !bytes.len().is_multiple_of(CARD_LENGTH) || bytes.len() > MOST_CARDS_LENGTH {
        return Err(Refusal::new(14, 0));
    }
    let cards: Vec<Card> = bytes.chunks(CARD_LENGTH).map(Card::read).collect();
    refuse_first(14, &cards, |card| card.entries().iter().any(|&entry| entry > MOST_ENTRY))?;
    refuse_first(15, &cards, |card| !AMOUNTS.contains(&card.amount()))?;
    Ok(cards.iter().map(|card| card.amount() as u64).collect())
}

/// Refuses with a number "at the first such card".
fn refuse_first(number: u32, cards: &[Card], is_wrong: fn(&Card) -> bool) -> Result<(), Refusal> {
    match cards.iter().position(is_wrong) {
        Some(index) => Err(Refusal::new(number, index as u64)),
        None => Ok(()),
    }
}
