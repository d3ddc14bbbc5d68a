//! What the page says of stock cards: where their entries stand, the formula of an amount, the limits of both and the
//! order of the tests. The reference answers and writes so.

use std::ops::{Range, RangeInclusive};

use reference::answers::{Answer, Refusal};
use reference::calls::amounts;
use reference::cards::Card;
use reference::layout::{amounts_length, AMOUNT_LENGTH, CARD_ENTRIES, CARD_LENGTH, MOST_CARDS};

use crate::kinds::{place, Page};
use crate::text::{called, range, single, table};

type Entries = [u64; CARD_ENTRIES];

/// All that the page says of cards.
struct Said {
    fields: Vec<Field>,
    formula: Vec<(bool, usize)>,
    amounts: RangeInclusive<u64>,
    tests: Vec<String>,
}

struct Field {
    name: String,
    place: Range<usize>,
    values: RangeInclusive<u64>,
}

impl Said {
    fn read() -> Said {
        let rows = table("### Card", "| byte | width | field | must be |");
        let fields: Vec<Field> = rows.iter().map(|row| Field::read(row)).collect();
        assert_eq!(fields.len(), CARD_ENTRIES);
        let rows = table("### Amount", "| byte | width | field | must be |");
        let [amount] = &rows[..] else { panic!("not one field: {rows:?}") };
        let (formula, amounts) = amount[3].split_once(", and ").unwrap_or_else(|| panic!("no amount: {amount:?}"));
        let rows = table("### The order of the tests", "| call | tests |");
        let row = rows.iter().find(|row| row[0] == "amounts of stock cards").expect("the call has a row");
        let tests = row[1].split("; ").map(str::to_string).collect();
        Said { formula: terms(formula, &fields), fields, amounts: range(amounts), tests }
    }

    fn bytes(&self, cards: &[Entries]) -> Vec<u8> {
        let mut bytes = vec![0; CARD_LENGTH * cards.len()];
        for (card, entries) in bytes.chunks_mut(CARD_LENGTH).zip(cards) {
            for (field, value) in self.fields.iter().zip(entries) {
                card[field.place.clone()].copy_from_slice(&value.to_le_bytes()[..field.place.len()]);
            }
        }
        bytes
    }

    fn has_bad_entry(&self, card: &Entries) -> bool {
        self.fields.iter().zip(card).any(|(field, value)| !field.values.contains(value))
    }

    /// Where it is none that the page allows, nothing.
    fn amount(&self, card: &Entries) -> Option<u64> {
        let terms = self.formula.iter().map(|&(adds, index)| if adds { 1 } else { -1 } * i128::from(card[index]));
        u64::try_from(terms.sum::<i128>()).ok().filter(|amount| self.amounts.contains(amount))
    }

    /// The place at which a test refuses. The length is that of the cards and of what stands behind them.
    fn place_refused(&self, test: (u64, &str), cards: &[Entries], length: usize, room: usize) -> Option<usize> {
        let needed = amounts_length(cards.len());
        match test {
            (14, "of the length") => (length != CARD_LENGTH * cards.len() || cards.len() > MOST_CARDS).then_some(0),
            (14, "card by card") => cards.iter().position(|card| self.has_bad_entry(card)),
            (15, "card by card") => cards.iter().position(|card| self.amount(card).is_none()),
            (8, "") => (room < needed).then_some(needed),
            _ => panic!("no test of cards: {test:?}"),
        }
    }

    /// "The first test that refuses is answered, at the first place where it does."
    fn answer(&self, cards: &[Entries], length: usize, room: usize) -> Answer {
        for test in self.tests.iter().map(|test| called(test)) {
            if let Some(place) = self.place_refused(test, cards, length, room) {
                return Answer::refused(Refusal::new(test.0 as u32, place as u64));
            }
        }
        Answer::accepted(amounts_length(cards.len()))
    }

    /// Holds the reference to the page, on cards with something behind them and a buffer of so much room.
    fn compare(&self, cards: &[Entries], behind: &[u8], room: usize) {
        let lent = [&self.bytes(cards), behind].concat();
        let mut buffer = vec![0xAA; room];
        let answer = amounts(&lent, &mut buffer);
        assert_eq!(answer, self.answer(cards, lent.len(), room), "{cards:?}, {behind:?}, {room}");
        let mut expected = vec![];
        if answer.number == 0 {
            expected.extend(cards.iter().flat_map(|card| self.amount(card).expect("an amount").to_le_bytes()));
        }
        expected.resize(room, 0xAA);
        assert_eq!(buffer, expected, "{cards:?}");
    }
}

impl Field {
    /// "0 to 10,000,000,000: what came in during the year"
    fn read(row: &[String]) -> Field {
        let (values, _) = row[3].split_once(": ").unwrap_or_else(|| panic!("not what it is: {row:?}"));
        Field { name: row[2].clone(), place: place(&row[0], &row[1]), values: range(values) }
    }
}

/// "received - dispatched + opening - closing": whether a term adds, and which entry it is.
fn terms(formula: &str, fields: &[Field]) -> Vec<(bool, usize)> {
    let signed = format!("+ {formula}");
    let words: Vec<&str> = signed.split(' ').collect();
    let term = |words: &[&str]| {
        let [sign @ ("+" | "-"), name] = words else { panic!("no term: {words:?}") };
        let index = fields.iter().position(|field| field.name == *name);
        (*sign == "+", index.unwrap_or_else(|| panic!("no entry: {name:?}")))
    };
    words.chunks(2).map(term).collect()
}

/// In the entries' order: one that is right, and those that are wrong in each way.
const GOOD: Entries = [1_000, 200, 30, 4];
const BELOW_ZERO: Entries = [200, 1_000, 30, 4];
const ABOVE: Entries = [10_000_000_000, 0, 1, 0];
const BAD_ENTRY: Entries = [1_000, 200, 10_000_000_001, 4];
const BAD_BOTH: Entries = [0, 10_000_000_001, 0, 0];

#[test]
fn entries_have_their_names() {
    let said = Said::read();
    let read = Card::read(&said.bytes(&[[1, 2, 3, 4]]));
    let named = [
        ("received", read.received),
        ("dispatched", read.dispatched),
        ("opening", read.opening),
        ("closing", read.closing),
    ];
    for (field, value) in said.fields.iter().zip(1..) {
        assert!(named.contains(&(field.name.as_str(), value)), "{}", field.name);
    }
}

/// Entries at the edges of their ranges and of the amount's, and in between.
#[test]
fn amounts_are_as_the_formula_says() {
    let said = Said::read();
    let most = *said.amounts.end();
    let values = [0, 1, 4, 5_000_000_000, most - 1, most, most + 1, u64::MAX];
    for received in values {
        for dispatched in values {
            for opening in values {
                for closing in values {
                    said.compare(&[[received, dispatched, opening, closing]], b"", AMOUNT_LENGTH);
                }
            }
        }
    }
}

#[test]
fn cards_are_tested_in_their_order() {
    let said = Said::read();
    let cards = [GOOD, BELOW_ZERO, ABOVE, BAD_ENTRY, BAD_BOTH];
    for first in cards {
        for second in cards {
            for third in cards {
                for room in [0, amounts_length(3) - 1, amounts_length(3), amounts_length(4)] {
                    said.compare(&[first, second, third], b"", room);
                    said.compare(&[first, second, third], b"\n", room);
                }
            }
        }
    }
}

#[test]
fn as_many_cards_as_the_page_says() {
    let said = Said::read();
    for count in [0, 1, MOST_CARDS - 1, MOST_CARDS, MOST_CARDS + 1] {
        for card in [GOOD, BAD_ENTRY] {
            said.compare(&vec![card; count], b"", amounts_length(MOST_CARDS + 1));
        }
    }
}

/// "Its 8 bytes are those of Q in a line."
#[test]
fn an_amount_is_a_quantity_of_a_line() {
    assert_eq!(Said::read().amounts, Page::read().limits.q);
    let rows = table("### Line", "| byte | width | field | must be |");
    let quantity = rows.iter().find(|row| row[2] == "Q").expect("a line has a quantity");
    assert_eq!(usize::from(single::<u8>(&quantity[1])), AMOUNT_LENGTH);
}
