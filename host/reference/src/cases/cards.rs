//! Amounts from stock cards: refusals 14, 15 and 8, and what is written.

use super::{accepted, group, refused, Case, Group, A_LITTLE_ROOM};
use crate::call::Call;
use crate::cards::Card;
use crate::draft::{card, cards};
use crate::layout::amounts_length;

pub fn groups() -> Vec<Group> {
    vec![
        group("Amounts from stock cards: none, one, several, and what tells the entries apart.", worked_out()),
        group("14: bytes that are not whole cards.", broken_lengths()),
        group("14: each entry at 10^10 and above it.", entries()),
        group("14: entries whose 64-bit sum or difference is innocent.", wrapping()),
        group("15: amounts at zero and at 10^10, and beyond them.", amounts()),
        group("14 and 15, turn: all entries before all amounts, each at the first such card.", turns()),
        group("14 and 15: as many cards as there may be, and one more.", largest_counts()),
        group("8: the room of amounts.", rooms()),
    ]
}

/// 10^10: the most that an entry or an amount may be.
const MOST: u64 = 10_000_000_000;

/// 30 t received, 20 t dispatched, and a stock of 15 t that went down to 5 t: 20 t.
const RIGHT: Card = Card { received: 30_000, dispatched: 20_000, opening: 15_000, closing: 5_000 };

fn right(name: impl Into<String>, some: &[Card]) -> Case {
    let length = amounts_length(some.len());
    accepted(name, Call::amounts(&cards(some), length), length as u64)
}

fn wrong(name: impl Into<String>, some: &[Card], number: u64, place: u64) -> Case {
    let call = Call::amounts(&cards(some), A_LITTLE_ROOM);
    refused(name, call, number, place)
}

fn worked_out() -> Vec<Case> {
    vec![
        accepted("no cards, no room", Call::amounts(&[], 0), 0),
        accepted("no cards, five bytes of room", Call::amounts(&[], 5), 0),
        right("a card of zeros", &[card(0, 0, 0, 0)]),
        right("received alone", &[card(826, 0, 0, 0)]),
        right("opening stock alone", &[card(0, 0, 826, 0)]),
        right("1000 - 200 + 30 - 4 is 826", &[card(1_000, 200, 30, 4)]),
        right("opening and closing exchanged, 774", &[card(1_000, 200, 4, 30)]),
        right("dispatched and opening exchanged, 1166", &[card(1_000, 30, 200, 4)]),
        right("dispatched above received", &[card(10, 30, 50, 5)]),
        right("closing above opening", &[card(50, 5, 10, 30)]),
        right("numbers of many digits", &[card(9_876_543_210, 1_234_567_890, 2_345_678_901, 987_654_321)]),
        right("three cards, 1, 256 and 65,536", &[card(1, 0, 0, 0), card(0, 0, 256, 0), card(65_536, 7, 7, 0)]),
        right("equal cards", &[RIGHT; 5]),
    ]
}

fn broken_lengths() -> Vec<Case> {
    let of_length = |length: usize| {
        let bytes = cards(&[RIGHT; 4])[..length].to_vec();
        refused(format!("{length} of 128 bytes"), Call::amounts(&bytes, A_LITTLE_ROOM), 14, 0)
    };
    let and_a_byte = |name: &str, second: Card| {
        let bytes = [cards(&[RIGHT, second]), vec![0]].concat();
        refused(name, Call::amounts(&bytes, A_LITTLE_ROOM), 14, 0)
    };
    let mut cases: Vec<Case> = [1, 8, 16, 31, 33, 63, 65, 127].map(of_length).into();
    cases.push(and_a_byte("65 bytes, an entry of card 1 out of range", card(MOST + 1, 0, 0, 0)));
    cases.push(and_a_byte("65 bytes, amount of card 1 below zero", card(0, 1, 0, 0)));
    cases
}

/// A card with an entry of any value, whose amount is right where the value is 10^10.
type WithEntry = fn(u64) -> Card;

const TRIED: [(&str, WithEntry); 4] = [
    ("received", |value| card(value, MOST, 0, 0)),
    ("dispatched", |value| card(MOST, value, 0, 0)),
    ("opening", |value| card(0, 0, value, MOST)),
    ("closing", |value| card(0, 0, MOST, value)),
];

fn entries() -> Vec<Case> {
    let above = [
        ("10^10 + 1", MOST + 1),
        ("2^34", 1 << 34),
        ("2^40", 1 << 40),
        ("2^63", 1 << 63),
        ("2^64 - 10^10", MOST.wrapping_neg()),
        ("2^64 - 1", u64::MAX),
    ];
    let mut cases = vec![];
    for (entry, with) in TRIED {
        cases.push(right(format!("{entry} 10^10"), &[RIGHT, with(MOST)]));
        for (value, number) in above {
            cases.push(wrong(format!("{entry} {value}"), &[RIGHT, with(number)], 14, 1));
        }
    }
    cases
}

fn wrapping() -> Vec<Case> {
    let (half, all) = (1 << 63, u64::MAX);
    vec![
        wrong("received 2^64 - 1, opening 1: 0", &[card(all, 0, 1, 0)], 14, 0),
        wrong("received 1, opening 2^64 - 1: 0", &[card(1, 0, all, 0)], 14, 0),
        wrong("received and opening 2^63: 0", &[card(half, 0, half, 0)], 14, 0),
        wrong("dispatched 2^64 - 1, closing 1: 0", &[card(0, all, 0, 1)], 14, 0),
        wrong("dispatched 1, closing 2^64 - 1: 0", &[card(0, 1, 0, all)], 14, 0),
        wrong("dispatched and closing 2^63: 0", &[card(0, half, 0, half)], 14, 0),
        wrong("dispatched 2^64 - 7: 7", &[card(0, all - 6, 0, 0)], 14, 0),
        wrong("closing 2^64 - 7: 7", &[card(0, 0, 0, all - 6)], 14, 0),
        wrong("received and dispatched 2^64 - 1", &[card(all, all, 0, 0)], 14, 0),
        wrong("opening and closing 2^64 - 1", &[card(0, 0, all, all)], 14, 0),
        wrong("every entry 2^64 - 1", &[card(all, all, all, all)], 14, 0),
    ]
}

fn amounts() -> Vec<Case> {
    vec![
        right("zero of the largest entries", &[card(MOST, MOST, MOST, MOST)]),
        right("zero, below it on the way", &[card(0, MOST, MOST, 0)]),
        right("one, below zero on the way", &[card(0, MOST - 1, MOST, 0)]),
        right("10^10 received", &[card(MOST, 0, 0, 0)]),
        right("10^10 from stock", &[card(0, 0, MOST, 0)]),
        right("10^10, above it on the way", &[card(MOST, 0, MOST, MOST)]),
        right("10^10, one dispatched and one in stock", &[card(MOST, 1, 1, 0)]),
        wrong("one dispatched", &[card(0, 1, 0, 0)], 15, 0),
        wrong("one in stock at the end", &[card(0, 0, 0, 1)], 15, 0),
        wrong("one below zero", &[card(5, 3, 0, 3)], 15, 0),
        wrong("one below zero, by the largest entries", &[card(MOST, MOST, MOST - 1, MOST)], 15, 0),
        wrong("opening and closing exchanged", &[card(0, 0, 3, 10)], 15, 0),
        wrong("as far below zero as can be", &[card(0, MOST, 0, MOST)], 15, 0),
        wrong("10^10 received and one from stock", &[card(MOST, 0, 1, 0)], 15, 0),
        wrong("one received and 10^10 from stock", &[card(1, 0, MOST, 0)], 15, 0),
        wrong("10^10 + 1, by the largest entries", &[card(MOST, MOST - 1, MOST, 0)], 15, 0),
        wrong("2^34", &[card(MOST, 0, 7_179_869_184, 0)], 15, 0),
        wrong("as far above 10^10 as can be", &[card(MOST, 0, MOST, 0)], 15, 0),
    ]
}

/// A card for 14, and cards for 15 by an amount below zero and by one above 10^10.
const OUT_OF_RANGE: Card = Card { received: 0, dispatched: 0, opening: 0, closing: MOST + 1 };
const BELOW: Card = Card { received: 0, dispatched: 1, opening: 0, closing: 0 };
const ABOVE: Card = Card { received: MOST, dispatched: 0, opening: 1, closing: 0 };

fn turns() -> Vec<Case> {
    vec![
        wrong("amount wrong at 0, entry at 1", &[BELOW, OUT_OF_RANGE], 14, 1),
        wrong("amount above at 0, entry at 2", &[ABOVE, RIGHT, OUT_OF_RANGE], 14, 2),
        wrong("entry wrong at 0, amount at 1", &[OUT_OF_RANGE, BELOW], 14, 0),
        wrong("entries wrong at 1 and 2", &[RIGHT, OUT_OF_RANGE, OUT_OF_RANGE], 14, 1),
        wrong("amounts below zero at 1 and 2", &[RIGHT, BELOW, BELOW], 15, 1),
        wrong("amounts below at 1, above at 2", &[RIGHT, BELOW, ABOVE], 15, 1),
        wrong("amounts above at 1, below at 2", &[RIGHT, ABOVE, BELOW], 15, 1),
        wrong("the last of five", &[RIGHT, RIGHT, RIGHT, RIGHT, ABOVE], 15, 4),
        wrong("sums of all cards are right", &[card(0, 5, 0, 0), card(10, 0, 0, 0)], 15, 0),
    ]
}

/// 1,024 cards whose amounts are 0, 1 and so on.
fn most() -> Vec<Card> {
    (0..1_024).map(|index| card(3_000 + index, 2_000, 4_000, 5_000)).collect()
}

fn largest_counts() -> Vec<Case> {
    let one_more = [most(), vec![RIGHT]].concat();
    let mut last_wrong = most();
    (last_wrong[0], last_wrong[1_023]) = (BELOW, OUT_OF_RANGE);
    vec![
        right("1,024 cards", &most()),
        wrong("1,025 cards", &one_more, 14, 0),
        wrong("1,024 cards, amount at 0, entry of the last", &last_wrong, 14, 1_023),
    ]
}

fn rooms() -> Vec<Case> {
    let with = |room| Call::amounts(&cards(&[card(1_000, 200, 30, 4), RIGHT]), room);
    let refused_in_none = |name, some: &[Card], number, place| {
        let call = Call::amounts(&cards(some), 0);
        refused(name, call, number, place)
    };
    vec![
        refused("two cards, no room", with(0), 8, 16),
        refused("two cards, room for one", with(8), 8, 16),
        refused("two cards, one byte short", with(15), 8, 16),
        accepted("two cards, one byte more", with(17).filled_with(0), 16),
        accepted("two cards, 24 bytes more", with(40).filled_with(255), 16),
        refused("one card, one byte short", Call::amounts(&cards(&[RIGHT]), 7), 8, 8),
        refused("31 bytes, no room", Call::amounts(&[0; 31], 0), 14, 0),
        refused_in_none("entry wrong at 1, no room", &[RIGHT, OUT_OF_RANGE], 14, 1),
        refused_in_none("amount wrong at 1, no room", &[RIGHT, BELOW], 15, 1),
    ]
}
