//! Stock cards that are accepted, of every count up to the limit; ways to spoil them; cards of edges alone.

use super::random::Random;
use super::spoil::put;
use crate::cards::{Card, AMOUNTS, MOST_ENTRY};
use crate::draft::{card, cards};
use crate::layout::{card_at, CARD_ENTRIES, CARD_ENTRY_LENGTH, CARD_LENGTH, MOST_CARDS, MOST_CARDS_LENGTH};

pub fn valid(random: &mut Random) -> Vec<u8> {
    let count = count(random);
    valid_of(random, count)
}

/// How many cards there are: few as a rule, and sometimes none or as many as there may be.
fn count(random: &mut Random) -> usize {
    match random.below(64) {
        0 => MOST_CARDS,
        1 => MOST_CARDS - 1,
        2 => 100 + random.index(900),
        3..=5 => 0,
        6..=15 => 1,
        _ => 2 + random.index(40),
    }
}

/// So many cards that are accepted.
pub fn valid_of(random: &mut Random, count: usize) -> Vec<u8> {
    cards(&(0..count).map(|_| valid_card(random)).collect::<Vec<Card>>())
}

fn valid_card(random: &mut Random) -> Card {
    let amount = random.near_ends(0..=*AMOUNTS.end() as u64);
    card_of(random, amount as i64)
}

/// A card with entries in range and this amount: what went out or was left over, dealt out to two entries, and so what
/// must have come in or been there.
fn card_of(random: &mut Random, amount: i64) -> Card {
    let most = 2 * MOST_ENTRY as i64;
    let out = random.near_ends(0.max(-amount) as u64..=most.min(most - amount) as u64);
    let [dispatched, closing] = in_two(random, out);
    let [received, opening] = in_two(random, out.wrapping_add_signed(amount));
    card(received, dispatched, opening, closing)
}

/// Two entries of a sum.
fn in_two(random: &mut Random, sum: u64) -> [u64; 2] {
    let first = random.near_ends(sum.saturating_sub(MOST_ENTRY)..=sum.min(MOST_ENTRY));
    [first, sum - first]
}

/// A fault: the refusal that it gives alone, and how it spoils the bytes of cards, of which there is at least one.
pub struct Fault {
    pub refusal: u32,
    spoil: fn(&mut Vec<u8>, &mut Random),
}

const fn of(refusal: u32, spoil: fn(&mut Vec<u8>, &mut Random)) -> Fault {
    Fault { refusal, spoil }
}

pub static FAULTS: [Fault; 12] = [
    // a length that is not in whole cards
    of(14, |b, r| b.truncate(b.len().saturating_sub(part_of_a_card(r)))),
    of(14, |b, r| b.extend(vec![r.byte(); part_of_a_card(r)])),
    // too many cards, and too many bytes for the most cards that are not whole cards
    of(14, |b, r| b.resize(MOST_CARDS_LENGTH + CARD_LENGTH * r.pick(&[1, 1, 2, 33]), 0)),
    of(14, |b, r| b.resize(MOST_CARDS_LENGTH + part_of_a_card(r), 0)),
    // an entry out of range: next to its limit, far from it, anywhere, and with an amount that is right in 64 bits
    of(14, |b, r| put_entry(b, MOST_ENTRY + 1 + r.below(2), r)),
    of(14, |b, r| put_entry(b, r.pick(&ABOVE), r)),
    of(14, |b, r| put_entry(b, r.number() | 1 << (34 + r.below(30)), r)),
    of(14, |b, r| put_wrapping(b, r)),
    // an amount below zero and one above 10^10: by one, and by any number
    of(15, |b, r| put_amount(b, -1, r)),
    of(15, |b, r| put_amount(b, -(r.between(1..=2 * MOST_ENTRY) as i64), r)),
    of(15, |b, r| put_amount(b, MOST_ENTRY as i64 + 1, r)),
    of(15, |b, r| put_amount(b, r.between(MOST_ENTRY + 1..=2 * MOST_ENTRY) as i64, r)),
];

/// Fewer bytes than a card has, and at least one.
fn part_of_a_card(random: &mut Random) -> usize {
    random.near_ends(1..=CARD_LENGTH as u64 - 1) as usize
}

/// Entries out of range, up to the largest number there is.
const ABOVE: [u64; 5] = [1 << 34, 1 << 63, MOST_ENTRY.wrapping_neg(), u64::MAX - 1, u64::MAX];

/// The place of some card.
fn a_card(bytes: &[u8], random: &mut Random) -> usize {
    card_at(random.index(bytes.len() / CARD_LENGTH))
}

fn put_entry(bytes: &mut [u8], entry: u64, random: &mut Random) {
    let place = a_card(bytes, random) + CARD_ENTRY_LENGTH * random.index(CARD_ENTRIES);
    put(bytes, place, CARD_ENTRY_LENGTH, entry);
}

/// Puts a card over another.
fn put_card(bytes: &mut [u8], card: Card, random: &mut Random) {
    let place = a_card(bytes, random);
    for (index, entry) in card.entries().into_iter().enumerate() {
        put(bytes, place + CARD_ENTRY_LENGTH * index, CARD_ENTRY_LENGTH, entry);
    }
}

fn put_amount(bytes: &mut [u8], amount: i64, random: &mut Random) {
    let card = card_of(random, amount);
    put_card(bytes, card, random);
}

/// A card of which two entries are out of range, and the amount is right in 64 bits: both are moved by as much.
fn put_wrapping(bytes: &mut [u8], random: &mut Random) {
    let Card { received, dispatched, opening, closing } = valid_card(random);
    let moved = random.pick(&[MOST_ENTRY + 1, 1 << 34, 1 << 63]);
    let (up, down) = (|entry: u64| entry.wrapping_add(moved), |entry: u64| entry.wrapping_sub(moved));
    let wrong = match random.below(4) {
        0 => card(up(received), up(dispatched), opening, closing),
        1 => card(received, dispatched, up(opening), up(closing)),
        2 => card(up(received), dispatched, down(opening), closing),
        _ => card(received, up(dispatched), opening, down(closing)),
    };
    put_card(bytes, wrong, random);
}

/// Cards with faults. Lengths are spoilt last.
pub fn spoilt(random: &mut Random, faults: &[usize]) -> Vec<u8> {
    let count = count(random).max(1);
    let mut bytes = valid_of(random, count);
    let mut faults = faults.to_vec();
    faults.sort_by_key(|&fault| std::cmp::Reverse(fault));
    for fault in faults {
        (FAULTS[fault].spoil)(&mut bytes, random);
    }
    bytes
}

/// Entries at both ends of their range and between, and one outside.
const EDGES: [u64; 9] = [0, 1, 2, MOST_ENTRY / 2, 1 << 33, MOST_ENTRY - 2, MOST_ENTRY - 1, MOST_ENTRY, MOST_ENTRY + 1];

/// A few cards of such entries alone.
pub fn of_edges(random: &mut Random) -> Vec<u8> {
    let count = 1 + random.index(3);
    let mut bytes = vec![0; card_at(count)];
    for entry in bytes.chunks_mut(CARD_ENTRY_LENGTH) {
        put(entry, 0, CARD_ENTRY_LENGTH, random.pick(&EDGES));
    }
    bytes
}
