//! Amounts from stock cards: formula 1 by hand, bytes stated one by one, the refusals at the largest counts, and what
//! becomes of an amount.

use reference::answers::{Answer, Refusal};
use reference::calls::{amounts, calculate};
use reference::cards::{amounts_of, Card, AMOUNTS, MOST_ENTRY};
use reference::draft::{boiler_line, boilers, card, cards};
use reference::layout::{line_at, report_length, MOST_AMOUNTS_LENGTH, MOST_CARDS_LENGTH};
use reference::methods::MOST_QUANTITY;
use reference::report::Report;

/// A card's entries in their order, and its amount.
const BY_HAND: [([u64; 4], u64); 12] = [
    ([0, 0, 0, 0], 0),
    ([7, 0, 0, 0], 7),
    ([7, 7, 0, 0], 0),
    ([0, 0, 7, 0], 7),
    ([0, 0, 7, 7], 0),
    // 1000 - 200 = 800, + 30 = 830, - 4 = 826
    ([1_000, 200, 30, 4], 826),
    // 200 - 1000 = -800, + 900 = 100, - 4 = 96
    ([200, 1_000, 900, 4], 96),
    // 1,240 t - 35 t + 310 t - 515 t = 1,000 t
    ([1_240_000, 35_000, 310_000, 515_000], 1_000_000),
    // 8,641,975,320 + 2,345,678,901 = 10,987,654,221, - 987,654,321 = 9,999,999,900
    ([9_876_543_210, 1_234_567_890, 2_345_678_901, 987_654_321], 9_999_999_900),
    ([10_000_000_000, 0, 10_000_000_000, 10_000_000_000], 10_000_000_000),
    ([0, 10_000_000_000, 10_000_000_000, 0], 0),
    ([10_000_000_000, 10_000_000_000, 10_000_000_000, 10_000_000_000], 0),
];

fn card_of([received, dispatched, opening, closing]: [u64; 4]) -> Card {
    card(received, dispatched, opening, closing)
}

#[test]
fn formula_1_by_hand() {
    for (entries, amount) in BY_HAND {
        assert_eq!(amounts_of(&cards(&[card_of(entries)])), Ok(vec![amount]), "{entries:?}");
    }
    let all = BY_HAND.map(|(entries, _)| card_of(entries));
    assert_eq!(amounts_of(&cards(&all)), Ok(BY_HAND.map(|(_, amount)| amount).to_vec()));
}

/// "received less dispatched, plus opening, less closing stock. Entries are 8-byte numbers in that order": 1000, 200,
/// 30 and 4 at other places. Only the two that add, or the two that take away, may change places.
#[test]
fn the_entries_have_their_order() {
    let at = |places: [usize; 4]| {
        let mut entries = [0; 4];
        for (place, number) in places.into_iter().zip([1_000, 200, 30, 4]) {
            entries[place] = number;
        }
        amounts_of(&cards(&[card_of(entries)]))
    };
    let below = Err(Refusal::new(15, 0));
    assert_eq!(at([0, 1, 2, 3]), Ok(vec![826]));
    assert_eq!(at([2, 1, 0, 3]), Ok(vec![826]));
    assert_eq!(at([0, 3, 2, 1]), Ok(vec![826]));
    assert_eq!(at([0, 1, 3, 2]), Ok(vec![774]));
    assert_eq!(at([0, 2, 1, 3]), Ok(vec![1_166]));
    assert_eq!(at([1, 0, 2, 3]), below);
    assert_eq!(at([3, 1, 2, 0]), below);
    let read = Card::read(&cards(&[card(1_000, 200, 30, 4)]));
    assert_eq!(read, Card { received: 1_000, dispatched: 200, opening: 30, closing: 4 });
}

#[test]
fn bytes_of_cards_and_amounts() {
    let lent = [
        [0xE8, 0x03, 0, 0, 0, 0, 0, 0],       // received 1,000
        [0xC8, 0, 0, 0, 0, 0, 0, 0],          // dispatched 200
        [0x1E, 0, 0, 0, 0, 0, 0, 0],          // opening 30
        [0x04, 0, 0, 0, 0, 0, 0, 0],          // closing 4
        [0x00, 0xE4, 0x0B, 0x54, 2, 0, 0, 0], // received 10,000,000,000
        [0x15, 0xCD, 0x5B, 0x07, 0, 0, 0, 0], // dispatched 123,456,789
        [0; 8],
        [0; 8],
    ];
    let expected = [
        [0x3A, 0x03, 0, 0, 0, 0, 0, 0],       // 826
        [0xEB, 0x16, 0xB0, 0x4C, 2, 0, 0, 0], // 9,876,543,211
        [0xAA; 8],
    ];
    let mut buffer = [0xAA; 24];
    assert_eq!(amounts(&lent.concat(), &mut buffer), Answer::accepted(16));
    assert_eq!(buffer[..], expected.concat());
}

fn refused(bytes: &[u8], number: u32, place: u64) {
    let mut buffer = vec![0xAA; MOST_AMOUNTS_LENGTH + 1];
    assert_eq!(amounts(bytes, &mut buffer), Answer::refused(Refusal::new(number, place)));
    assert!(buffer.iter().all(|&byte| byte == 0xAA));
}

#[test]
fn lengths_near_the_most_cards() {
    let bytes = vec![0; 32_832];
    assert_eq!(MOST_CARDS_LENGTH, 32_768);
    assert_eq!(amounts_of(&bytes[..32_736]), Ok(vec![0; 1_023]));
    assert_eq!(amounts_of(&bytes[..32_768]), Ok(vec![0; 1_024]));
    for length in [32_737, 32_767, 32_769, 32_799, 32_800, 32_801, 32_832] {
        refused(&bytes[..length], 14, 0);
    }
}

#[test]
fn the_last_of_1024_cards_is_tested() {
    let with_last = |last| cards(&[vec![card(5, 4, 3, 2); 1_023], vec![last]].concat());
    assert_eq!(amounts_of(&with_last(card(0, 0, 0, 0))).map(|amounts| amounts[1_022..].to_vec()), Ok(vec![2, 0]));
    refused(&with_last(card(0, 0, 0, MOST_ENTRY + 1)), 14, 1_023);
    refused(&with_last(card(u64::MAX, 0, 1, 0)), 14, 1_023);
    refused(&with_last(card(0, 1, 0, 0)), 15, 1_023);
    refused(&with_last(card(MOST_ENTRY, 0, 1, 0)), 15, 1_023);
}

/// "to become quantities of lines": every amount is a quantity, and its 8 bytes stand in a line as they were written.
#[test]
fn an_amount_is_a_quantity() {
    assert_eq!(AMOUNTS, 0..=i128::from(MOST_QUANTITY));
    let mut register = boilers(&[7]).bytes();
    let quantity = line_at(1, 0) + 12..line_at(1, 1);
    let coal = cards(&[card(1_240_000, 35_000, 310_000, 515_000)]);
    register[quantity.clone()].fill(0);
    assert_eq!(amounts(&coal, &mut register[quantity]), Answer::accepted(8));
    assert_eq!(boiler_line().quantity, 1_000_000);
    assert_eq!(register, boilers(&[7]).bytes());
    let mut report = [0; report_length(1)];
    assert_eq!(calculate(&register, &mut report).number, 0);
    let report = Report::read(&report).expect("a written report is well-formed");
    assert_eq!(report.entries[0].masses.co2, 2_931_200_000);
}
