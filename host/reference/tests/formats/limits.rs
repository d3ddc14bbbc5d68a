//! The limits that the page names, in its layouts and in its sentences, are those of the reference. What the page has
//! to say is made out of the reference's figures here.

use std::ops::RangeInclusive;

use reference::cards::{AMOUNTS, MOST_ENTRY};
use reference::draft::boiler_line;
use reference::examples::STORES;
use reference::layout::{
    amounts_length, card_at, AMOUNT_LENGTH, CARD_LENGTH, ENTRIES_AT, ENTRY_LENGTH, LINE_LENGTH, METHODS,
    MOST_AMOUNTS_LENGTH, MOST_CARDS, MOST_CARDS_LENGTH, MOST_LINES, MOST_NAME_BYTES, MOST_REGISTER_LENGTH,
    MOST_REPORT_LENGTH, MOST_SOURCES, MOST_TEXT_LENGTH, NAME_LENGTHS, REGISTER_LAYOUT, REPORT_LAYOUT, SOURCES_AT,
    SOURCE_LENGTH, YEARS,
};
use reference::masses::{MOST_EQUIVALENT, WARMING};

use crate::text::{page, table};
use crate::{calculated, one_source};

/// Holds each field of a layout to what it must be.
fn compare(heading: &str, layout: &[(&str, String)]) {
    let rows = table(heading, "| byte | width | field | must be |");
    let said: Vec<(&str, String)> = rows.iter().map(|row| (row[2].as_str(), row[3].clone())).collect();
    assert_eq!(said, layout, "{heading}");
}

fn within(range: RangeInclusive<u64>) -> String {
    format!("{} to {}", range.start(), range.end())
}

/// "CO2 + 25 CH4 + 298 N2O"
fn equivalent() -> String {
    let [1, ch4, n2o] = WARMING else { panic!("CO2 is no longer its own equivalent") };
    format!("CO2 + {ch4} CH4 + {n2o} N2O")
}

/// "10^15"
fn power_of_ten(number: u128) -> String {
    let power = number.ilog10();
    assert_eq!(10_u128.pow(power), number);
    format!("10^{power}")
}

#[test]
fn fields_of_a_register_header() {
    let lines_at = format!("{SOURCES_AT} + {SOURCE_LENGTH}n");
    let names_at = format!("{lines_at} + {LINE_LENGTH}m");
    compare(
        "### Register header",
        &[
            ("tag", "`GREG`".to_string()),
            ("layout", REGISTER_LAYOUT.to_string()),
            ("year", within(YEARS)),
            ("sources n", format!("0 to {MOST_SOURCES}")),
            ("lines m", format!("0 to {MOST_LINES}")),
            ("name bytes t", format!("0 to {MOST_NAME_BYTES}")),
            ("offset of sources", SOURCES_AT.to_string()),
            ("offset of lines", lines_at),
            ("offset of names", names_at.clone()),
            ("whole length", format!("{names_at} + t, and there must be exactly so many bytes")),
        ],
    );
}

/// The least number and the least count of lines are found by trying.
#[test]
fn fields_of_a_source_entry() {
    let is_accepted =
        |number: u32, lines: usize| calculated(&one_source(number, 1, 0, &vec![boiler_line(); lines])).is_ok();
    assert!(is_accepted(u32::MAX, 1));
    let least_number = (0..).find(|&number| is_accepted(number, 1)).expect("the largest is accepted");
    let least_lines = (0..).find(|&lines| is_accepted(u32::MAX, lines)).expect("one line is accepted");
    compare(
        "### Source entry",
        &[
            ("number", format!("{least_number} to {}, and the number of no other entry", u32::MAX)),
            ("method", within(METHODS)),
            ("parameter", "one that is listed with the method, below".to_string()),
            ("line count", format!("at least {least_lines}")),
            ("first line", "where the lines of the entry before ended; 0 in entry 0".to_string()),
            ("name length", within(NAME_LENGTHS)),
            (
                "name offset",
                "where the name of the entry before ended, counted from the first name byte; 0 in entry 0".to_string(),
            ),
        ],
    );
}

#[test]
fn fields_of_a_report_header() {
    let length = format!("{ENTRIES_AT} + {ENTRY_LENGTH}n, and there must be exactly so many bytes");
    compare(
        "### Report header and totals",
        &[
            ("tag", "`GREP`".to_string()),
            ("layout", REPORT_LAYOUT.to_string()),
            ("year", within(YEARS)),
            ("count n", format!("0 to {MOST_SOURCES}")),
            ("zero", "0".to_string()),
            ("offset of entries", ENTRIES_AT.to_string()),
            ("whole length", length),
            ("zero", "0".to_string()),
            ("total CO2", "the sum of the entries' CO2".to_string()),
            ("total CH4", "the sum of their CH4".to_string()),
            ("total N2O", "the sum of their N2O".to_string()),
            ("total equivalent", "the sum of their equivalents".to_string()),
        ],
    );
}

#[test]
fn fields_of_a_report_entry() {
    compare(
        "### Report entry",
        &[
            ("number", "not 0, and above that of the entry before".to_string()),
            ("method", within(METHODS)),
            ("zero", "0".to_string()),
            ("CO2", "any mass with which the equivalent is in its limit".to_string()),
            ("CH4", "likewise".to_string()),
            ("N2O", "likewise".to_string()),
            ("equivalent", format!("{}, and at most {}", equivalent(), power_of_ten(MOST_EQUIVALENT))),
        ],
    );
}

#[test]
fn fields_of_a_card_and_of_its_amount() {
    compare(
        "### Card",
        &[
            ("received", format!("0 to {MOST_ENTRY}: what came in during the year")),
            ("dispatched", format!("0 to {MOST_ENTRY}: what left the plant for others")),
            ("opening", format!("0 to {MOST_ENTRY}: the stock as the year begins")),
            ("closing", format!("0 to {MOST_ENTRY}: the stock as the year ends")),
        ],
    );
    let amount = format!("received - dispatched + opening - closing, and {} to {}", AMOUNTS.start(), AMOUNTS.end());
    compare("### Amount", &[("amount", amount)]);
}

fn assert_said(sentences: &[String]) {
    let page: Vec<String> = page().split_whitespace().map(str::to_string).collect();
    let page = page.join(" ");
    for sentence in sentences {
        assert!(page.contains(sentence), "the page does not say: {sentence}");
    }
}

#[test]
fn sentences_with_limits() {
    let (equivalent, most_equivalent) = (equivalent(), power_of_ten(MOST_EQUIVALENT));
    assert_said(&[
        format!("t name bytes it has {SOURCES_AT} + {SOURCE_LENGTH}n + {LINE_LENGTH}m + t bytes."),
        format!("The most are {MOST_SOURCES} sources, {MOST_LINES} lines and {MOST_NAME_BYTES} name bytes,"),
        format!("the longest register has {MOST_REGISTER_LENGTH} bytes. The empty one has {SOURCES_AT}."),
        format!("Entry i, counted from 0, begins at byte {SOURCES_AT} + {SOURCE_LENGTH}i."),
        format!("over all sources, begins at byte {SOURCES_AT} + {SOURCE_LENGTH}n + {LINE_LENGTH}j."),
        format!("The CO2-equivalent is {equivalent} of the rounded masses. Above {most_equivalent} g it is refused"),
        format!("With n entries it has {ENTRIES_AT} + {ENTRY_LENGTH}n bytes: at least {ENTRIES_AT},"),
        format!("at most {MOST_REPORT_LENGTH}. Masses"),
        format!("Entry i, counted from 0, begins at byte {ENTRIES_AT} + {ENTRY_LENGTH}i."),
        format!("No text has more than {MOST_TEXT_LENGTH} bytes."),
        format!("| 1 | the register has fewer than {SOURCES_AT} bytes,"),
        format!("| 7 | a source's equivalent is above {most_equivalent} g |"),
        format!("| 12 | two reports have more than {MOST_SOURCES} entries together |"),
    ]);
}

#[test]
fn sentences_on_cards() {
    let (most_entry, most_amount) = (power_of_ten(MOST_ENTRY.into()), power_of_ten(*AMOUNTS.end() as u128));
    let count = STORES.len();
    let (name, card) = STORES[1];
    assert!(name.starts_with("coal, t;"));
    let [received, dispatched, opening, closing] = card.entries();
    assert_said(&[
        format!("With n cards there are {CARD_LENGTH}n bytes. The most are {MOST_CARDS} cards,"),
        format!(" cards, {MOST_CARDS_LENGTH} bytes; there may be none."),
        format!("Card i, counted from 0, begins at byte {CARD_LENGTH}i."),
        format!("The amount of card i begins at byte {AMOUNT_LENGTH}i,"),
        format!("There are at most {MOST_AMOUNTS_LENGTH} bytes, and of no cards none."),
        format!("thousandths of its card's unit, and its {AMOUNT_LENGTH} bytes are those of Q in a line."),
        format!("`examples/stores.cards` has {} bytes: {CARD_LENGTH} x {count}. Card 1 is of coal,", card_at(count)),
        format!("Its amount is {received} - {dispatched} + {opening} - {closing} = {}.", card.amount()),
        format!("`tests/stores.amounts` has {} bytes: {AMOUNT_LENGTH} x {count}.", amounts_length(count)),
        format!("| 14 | the bytes are not whole cards of {CARD_LENGTH} bytes or more than {MOST_CARDS} cards;"),
        format!("; or a card has an entry above {most_entry} |"),
        format!("| 15 | a card's amount is below zero or above {most_amount} |"),
    ]);
}
