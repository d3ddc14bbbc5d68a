//! The wrapper: results, refusals with their sentences, and names as parts of what was lent.

use kopristen::{
    amounts, calculate, check, combine, name, name_of_two, remove, text, Refusal, MOST_AMOUNTS_BYTES,
    MOST_REPORT_BYTES, MOST_TEXT_BYTES,
};
use reference::answers::LAST_REFUSAL;
use reference::draft::{boiler, boilers, card, cards, register};
use reference::layout::{
    AMOUNT_LENGTH, CARD_LENGTH, ENTRIES_AT, ENTRY_LENGTH, MOST_AMOUNTS_LENGTH, MOST_CARDS, MOST_CARDS_LENGTH,
    MOST_LINES, MOST_NAME_BYTES, MOST_REGISTER_LENGTH, MOST_REPORT_LENGTH, MOST_SOURCES, MOST_TEXT_LENGTH,
    NAME_LENGTHS,
};
use reference::masses::Masses;
use reference::report::{Entry, Report};

fn calculated(numbers: &[u32]) -> Vec<u8> {
    let mut report = vec![0; MOST_REPORT_BYTES];
    let length = calculate(&boilers(numbers).bytes(), &mut report).expect("boilers are accepted");
    report.truncate(length);
    report
}

#[test]
fn accepted_calls_answer_the_length() {
    let report = calculated(&[8, 7]);
    assert_eq!(report.len(), 136);
    assert_eq!(check(&report), Ok(136));
    let mut result = [0; 136];
    assert_eq!(remove(&report, 8, &mut result), Ok(96));
    assert_eq!(result[..96], calculated(&[7]));
    assert_eq!(combine(&calculated(&[8]), &calculated(&[7]), &mut result), Ok(136));
    assert_eq!(result[..], report);
    let mut written = [0; 200];
    let length = text(&report, &mut written).expect("room enough");
    assert!(written[..length].starts_with(b"2023 2 5862400000 0 0 5862400000\n7 1 2931200000 0 0 "));
    assert_eq!(amounts(&cards(&[card(1_000, 200, 30, 4), card(5, 0, 2, 0)]), &mut written), Ok(16));
    assert_eq!(written[..16], [826u64.to_le_bytes(), 7u64.to_le_bytes()].concat());
    assert_eq!(amounts(&[], &mut []), Ok(0));
}

/// The wrapper and the header for C state limits and lengths of their own, which must be those of the reference.
#[test]
fn lengths_are_those_of_the_reference() {
    let longest_name = *NAME_LENGTHS.end() as usize;
    assert_eq!(kopristen::MOST_SOURCES, MOST_SOURCES);
    assert_eq!(kopristen::MOST_LINES, MOST_LINES);
    assert_eq!(kopristen::MOST_NAME_BYTES, MOST_NAME_BYTES);
    assert_eq!(kopristen::LONGEST_NAME, longest_name);
    assert_eq!(kopristen::MOST_REGISTER_BYTES, MOST_REGISTER_LENGTH);
    assert_eq!(MOST_REPORT_BYTES, MOST_REPORT_LENGTH);
    assert_eq!(MOST_TEXT_BYTES, MOST_TEXT_LENGTH);
    assert_eq!(kopristen::MOST_CARDS, MOST_CARDS);
    assert_eq!(kopristen::MOST_CARDS_BYTES, MOST_CARDS_LENGTH);
    assert_eq!(MOST_AMOUNTS_BYTES, MOST_AMOUNTS_LENGTH);
    let header = include_str!("../../../include/kopristen.h");
    let defined: Vec<&str> = header.lines().filter_map(|line| line.strip_prefix("#define KOPRISTEN_")).collect();
    let expected = [
        "H".to_string(),
        format!("MOST_SOURCES {MOST_SOURCES}"),
        format!("MOST_LINES {MOST_LINES}"),
        format!("MOST_NAME_BYTES {MOST_NAME_BYTES}"),
        format!("LONGEST_NAME {longest_name}"),
        format!("MOST_REGISTER_BYTES {MOST_REGISTER_LENGTH}"),
        format!("REPORT_BYTES(sources) ({ENTRIES_AT} + {ENTRY_LENGTH} * (size_t)(sources))"),
        "MOST_REPORT_BYTES KOPRISTEN_REPORT_BYTES(KOPRISTEN_MOST_SOURCES)".to_string(),
        format!("MOST_TEXT_BYTES {MOST_TEXT_LENGTH}"),
        format!("MOST_CARDS {MOST_CARDS}"),
        format!("CARDS_BYTES(cards) ({CARD_LENGTH} * (size_t)(cards))"),
        "MOST_CARDS_BYTES KOPRISTEN_CARDS_BYTES(KOPRISTEN_MOST_CARDS)".to_string(),
        format!("AMOUNTS_BYTES(cards) ({AMOUNT_LENGTH} * (size_t)(cards))"),
        "MOST_AMOUNTS_BYTES KOPRISTEN_AMOUNTS_BYTES(KOPRISTEN_MOST_CARDS)".to_string(),
    ];
    assert_eq!(defined, expected);
}

/// No text is longer than this one. An equivalent of 10^15 leaves no room for all gases at their widest, neither in an
/// entry nor in the totals, so each line has a byte less than the bound gives it.
#[test]
fn the_longest_text_has_room() {
    let masses = Masses { co2: 202_000_000_000_000, ch4: 20_000_000_000_000, n2o: 1_000_000_000_000 };
    let numbers = (0..MOST_SOURCES as u32).map(|index| u32::MAX - index);
    let report = Report::of(2023, numbers.map(|number| Entry { number, method: 3, masses }).collect());
    let mut written = [0; MOST_TEXT_BYTES];
    let length = text(&report.bytes(), &mut written).expect("room enough");
    assert!(written[..length] == report.text());
    assert_eq!(length, 38_481);
    assert_eq!(MOST_TEXT_BYTES - length, 1 + MOST_SOURCES);
}

#[test]
fn the_most_cards_have_room() {
    let most = cards(&[card(5, 4, 3, 2); kopristen::MOST_CARDS]);
    let mut written = [0; MOST_AMOUNTS_BYTES];
    assert_eq!(amounts(&most, &mut written), Ok(MOST_AMOUNTS_BYTES));
    assert_eq!(written[..], 2u64.to_le_bytes().repeat(kopristen::MOST_CARDS));
}

#[test]
fn refusals_say_what_is_wrong() {
    let refused = calculate(&boilers(&[7, 7]).bytes(), &mut [0; 136]);
    let refusal = refused.expect_err("a number twice");
    assert_eq!(refusal, Refusal { number: 4, place: 1 });
    assert_eq!(refusal.to_string(), "source 1, counted from 0, has a number that an earlier source has");
    let error: Box<dyn std::error::Error> = Box::new(refusal);
    assert_eq!(error.to_string(), refusal.to_string());
    assert_eq!(check(&[]), Err(Refusal { number: 9, place: 1 }));
    assert_eq!(remove(&calculated(&[7]), 8, &mut []), Err(Refusal { number: 13, place: 8 }));
    let exchanged = cards(&[card(0, 0, 10, 3), card(0, 0, 3, 10)]);
    assert_eq!(amounts(&exchanged, &mut []), Err(Refusal { number: 15, place: 1 }));
    assert_eq!(amounts(&exchanged[..63], &mut []), Err(Refusal { number: 14, place: 0 }));
    assert_eq!(amounts(&exchanged[..32], &mut []), Err(Refusal { number: 8, place: 8 }));
}

#[test]
fn each_refusal_has_its_own_sentence() {
    let sentences = (1..=LAST_REFUSAL).map(|number| Refusal { number, place: 3 }.to_string());
    let different: std::collections::BTreeSet<String> = sentences.collect();
    assert_eq!(different.len(), LAST_REFUSAL as usize);
    assert!(different.iter().all(|sentence| !sentence.starts_with("refused")));
    assert!(Refusal { number: LAST_REFUSAL + 1, place: 3 }.to_string().starts_with("refused"));
}

/// 14 is about the length only where its place is 0.
#[test]
fn the_length_of_cards_is_said_at_place_0() {
    for place in 0..3 {
        let sentence = Refusal { number: 14, place }.to_string();
        assert!(sentence.starts_with(&format!("card {place}, counted from 0, has an entry above 10^10")), "{sentence}");
        assert_eq!(sentence.contains("whole cards"), place == 0, "{sentence}");
    }
}

/// The place of 3 to 7, 14 and 15 is the index of a source, of a line or of a card, and of no other refusal.
#[test]
fn an_index_is_said_to_be_one() {
    for number in 1..=LAST_REFUSAL {
        let sentence = Refusal { number, place: 3 }.to_string();
        let is_index =
            ["source", "line", "card"].iter().any(|what| sentence.contains(&format!("{what} 3, counted from 0,")));
        assert_eq!(is_index, [3, 4, 5, 6, 7, 14, 15].contains(&number), "{sentence}");
    }
}

#[test]
fn a_name_is_a_part_of_its_register() {
    let plant = register(2023, vec![boiler(7).named(b"Old boiler"), boiler(8)]).bytes();
    let contractor = register(2023, vec![boiler(8), boiler(9).named(b"New boiler")]).bytes();
    let found = name(&plant, 7).expect("a name");
    assert_eq!(found, b"Old boiler");
    assert!(plant.as_ptr_range().contains(&found.as_ptr()));
    assert_eq!(name(&plant, 9), None);
    assert_eq!(name_of_two(&plant, &contractor, 7), Some(&b"Old boiler"[..]));
    assert_eq!(name_of_two(&plant, &contractor, 9), Some(&b"New boiler"[..]));
    assert_eq!(name_of_two(&plant, &contractor, 8), None);
}
