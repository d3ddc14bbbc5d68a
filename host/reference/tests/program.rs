//! What the report program and the amounts program write.

use reference::calls::{amounts_program, refused_line, report_program};
use reference::draft::{boilers, card, cards};

/// Document 01's example, word for word.
#[test]
fn two_boilers() {
    let text = "2023 2 5862400000 0 0 5862400000\n7 1 2931200000 0 0 2931200000\n8 1 2931200000 0 0 2931200000\n";
    assert_eq!(report_program(&boilers(&[8, 7]).bytes()), text.as_bytes());
}

#[test]
fn the_empty_register() {
    assert_eq!(report_program(&boilers(&[]).bytes()), b"2023 0 0 0 0 0\n");
}

#[test]
fn refusals_are_a_line() {
    assert_eq!(report_program(&[]), b"refused 1 0\n");
    assert_eq!(report_program(&boilers(&[7, 7]).bytes()), b"refused 4 1\n");
    assert_eq!(refused_line(13, 4_294_967_295), b"refused 13 4294967295\n");
}

/// They are answered as if all of them were lent: 2 with place 28, or with that of an earlier field of the header.
#[test]
fn inputs_longer_than_any_register() {
    let mut input = boilers(&[8, 7]).bytes();
    input.resize(100_000, 0);
    assert_eq!(report_program(&input), b"refused 2 28\n");
    input[4] = 9;
    assert_eq!(report_program(&input), b"refused 2 4\n");
}

#[test]
fn amounts_are_a_line_each() {
    let four = [card(1_000, 200, 30, 4), card(0, 0, 0, 0), card(10, 30, 50, 5), card(10_000_000_000, 0, 0, 0)];
    assert_eq!(amounts_program(&cards(&four)), b"826\n0\n25\n10000000000\n");
    assert_eq!(amounts_program(&[]), b"");
}

#[test]
fn refusals_of_cards_are_a_line() {
    assert_eq!(amounts_program(&[0; 31]), b"refused 14 0\n");
    assert_eq!(amounts_program(&cards(&[card(0, 1, 0, 0), card(10_000_000_001, 0, 0, 0)])), b"refused 14 1\n");
    assert_eq!(amounts_program(&cards(&[card(1, 0, 0, 0), card(0, 0, 3, 10)])), b"refused 15 1\n");
}

/// They are answered as if all of them were lent: 14 with place 0, whatever the cards are.
#[test]
fn inputs_longer_than_the_most_cards() {
    for length in [32_769, 32_799, 32_800, 45_088, 100_000, 1_000_000] {
        assert_eq!(amounts_program(&vec![0; length]), b"refused 14 0\n");
        assert_eq!(amounts_program(&vec![255; length]), b"refused 14 0\n");
    }
}
