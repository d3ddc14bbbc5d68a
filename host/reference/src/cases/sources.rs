//! Refusal 3.

use super::{calculation_accepted, calculation_refused, group, Case, Group};
use crate::draft::{boiler, boilers, edited, line, register, source, Draft};
use crate::layout::{line_at, source_at};
use crate::register::Line;

pub fn groups() -> Vec<Group> {
    vec![
        group("3: each rule of a source entry by itself, at the first and at the last entry.", wrong_entries()),
        group("3: pairs of method and parameter that are not listed.", unlisted()),
        group("3: one line or name byte too many or too few; what is left over.", misplaced()),
        group("3: sums of places do not wrap.", unwrapped()),
        group("3: name bytes and name lengths at both ends.", names()),
        group("3, turn: entry by entry, after 2 and before 4 and 5.", turns()),
    ]
}

/// Three sources with one, two and three lines, and names of 6, 7 and 9 bytes.
fn draft() -> Draft {
    let metal = |kind| line(kind, 1, 0, 500_000, 10_000, 0);
    register(
        2023,
        vec![
            boiler(10).named(b"Boiler"),
            source(20, 3, 0, &[metal(10), metal(11)]).named(b"Furnace"),
            source(30, 4, 2, &[metal(10), metal(11), metal(14)]).named(b"Cracker 2"),
        ],
    )
}

fn right() -> Vec<u8> {
    draft().bytes()
}

/// A field of a source entry: where it stands in the entry, and its width.
type Field = (usize, usize);
const NUMBER: Field = (0, 4);
const METHOD: Field = (4, 1);
const PARAMETER: Field = (5, 1);
const LINE_COUNT: Field = (6, 2);
const FIRST_LINE: Field = (8, 2);
const NAME_LENGTH: Field = (10, 2);
const NAME_OFFSET: Field = (12, 4);

fn with(register: &[u8], index: usize, (at, width): Field, value: u64) -> Vec<u8> {
    edited(register, source_at(index) + at, width, value)
}

fn wrong_entries() -> Vec<Case> {
    let wrong: [(&str, Field, u64); 12] = [
        ("number 0", NUMBER, 0),
        ("method 0", METHOD, 0),
        ("method 7", METHOD, 7),
        ("parameter 9", PARAMETER, 9),
        ("line count 0", LINE_COUNT, 0),
        ("line count 7", LINE_COUNT, 7),
        ("first line 7", FIRST_LINE, 7),
        ("first line 256", FIRST_LINE, 256),
        ("name length 0", NAME_LENGTH, 0),
        ("name length 65", NAME_LENGTH, 65),
        ("name offset 23", NAME_OFFSET, 23),
        ("name offset 65,536", NAME_OFFSET, 65_536),
    ];
    let mut cases = vec![calculation_accepted("three sources, all right", &right(), 3)];
    for (name, field, value) in wrong {
        for index in [0, 2] {
            let name = format!("entry {index}, {name}");
            let register = with(&right(), index, field, value);
            cases.push(calculation_refused(name, &register, 3, index as u64));
        }
    }
    cases
}

fn unlisted() -> Vec<Case> {
    let pairs =
        [(0, 0), (1, 1), (1, 255), (2, 1), (3, 1), (3, 6), (4, 0), (4, 7), (5, 1), (6, 0), (6, 7), (7, 1), (255, 0)];
    pairs
        .iter()
        .map(|&(method, parameter)| {
            let register = with(&boilers(&[8, 7]).bytes(), 1, METHOD, method);
            let register = with(&register, 1, PARAMETER, parameter);
            let name = format!("method {method}, parameter {parameter}");
            calculation_refused(name, &register, 3, 1)
        })
        .collect()
}

fn misplaced() -> Vec<Case> {
    let stated = |index, field, value| with(&right(), index, field, value);
    let mut line_over = draft();
    line_over.lines_left_over = vec![line(1, 1, 3, 0, 0, 0)];
    let mut name_over = draft();
    name_over.name_bytes_left_over = b"?".to_vec();
    let mut none_but_line = boilers(&[]);
    none_but_line.lines_left_over = line_over.lines_left_over.clone();
    let mut none_but_name = boilers(&[]);
    none_but_name.name_bytes_left_over = b"?".to_vec();
    vec![
        calculation_refused("entry 0 has a line more", &stated(0, LINE_COUNT, 2), 3, 1),
        calculation_refused("entry 1 has a line fewer", &stated(1, LINE_COUNT, 1), 3, 2),
        calculation_refused("entry 2 has a line more: past m", &stated(2, LINE_COUNT, 4), 3, 2),
        calculation_refused("entry 2 has a line fewer: left over", &stated(2, LINE_COUNT, 2), 3, 3),
        calculation_refused("entry 0 begins at line 1", &stated(0, FIRST_LINE, 1), 3, 0),
        calculation_refused("entry 1 begins a line early", &stated(1, FIRST_LINE, 0), 3, 1),
        calculation_refused("entry 2 begins a line late", &stated(2, FIRST_LINE, 4), 3, 2),
        calculation_refused("entry 0 has a name byte more", &stated(0, NAME_LENGTH, 7), 3, 1),
        calculation_refused("entry 1 has a name byte fewer", &stated(1, NAME_LENGTH, 6), 3, 2),
        calculation_refused("entry 2 has a name byte more: past t", &stated(2, NAME_LENGTH, 10), 3, 2),
        calculation_refused("entry 2 has a name byte fewer: left over", &stated(2, NAME_LENGTH, 8), 3, 3),
        calculation_refused("entry 0's name begins at 1", &stated(0, NAME_OFFSET, 1), 3, 0),
        calculation_refused("entry 1's name begins a byte early", &stated(1, NAME_OFFSET, 5), 3, 1),
        calculation_refused("entry 2's name begins a byte late", &stated(2, NAME_OFFSET, 14), 3, 2),
        calculation_refused("a line that no source has", &line_over.bytes(), 3, 3),
        calculation_refused("a name byte that no source has", &name_over.bytes(), 3, 3),
        calculation_refused("no source, one line", &none_but_line.bytes(), 3, 0),
        calculation_refused("no source, one name byte", &none_but_name.bytes(), 3, 0),
    ]
}

fn unwrapped() -> Vec<Case> {
    let lines = with(&right(), 1, FIRST_LINE, 65_535);
    let lines = with(&lines, 1, LINE_COUNT, 65_535);
    let names = with(&right(), 1, NAME_OFFSET, 0xFFFF_FFFF);
    vec![
        calculation_refused("first line and count 65,535", &lines, 3, 1),
        calculation_refused("first line 65,535, two lines", &with(&lines, 1, LINE_COUNT, 2), 3, 1),
        calculation_refused("name offset 2^32 - 1, length 7", &names, 3, 1),
        calculation_refused("name offset 2^32 - 1, length 65,535", &with(&names, 1, NAME_LENGTH, 65_535), 3, 1),
        calculation_refused("line count 65,535", &with(&right(), 0, LINE_COUNT, 65_535), 3, 0),
        calculation_refused("name length 65,535", &with(&right(), 0, NAME_LENGTH, 65_535), 3, 0),
    ]
}

fn named(first: &[u8], second: &[u8]) -> Vec<u8> {
    let sources = vec![boiler(1).named(first), boiler(2).named(second)];
    register(2023, sources).bytes()
}

fn names() -> Vec<Case> {
    let mut cases = vec![
        calculation_accepted("names of 1 and 64 bytes", &named(b"a", &[b'b'; 64]), 2),
        calculation_refused("name of 65 bytes", &named(b"a", &[b'b'; 65]), 3, 1),
        calculation_refused("no name", &named(b"", b"b"), 3, 0),
        calculation_accepted("bytes 32, 126, 128 and 255", &named(&[32, 126], &[128, 255]), 2),
        calculation_accepted("equal names", &named(b"Boiler DE-25", b"Boiler DE-25"), 2),
    ];
    for byte in [0, 10, 31, 127] {
        let first = named(&[byte, b'a', b'b'], b"good");
        let last = named(b"good", &[b'a', b'b', byte]);
        cases.push(calculation_refused(format!("byte {byte} begins a name"), &first, 3, 0));
        cases.push(calculation_refused(format!("byte {byte} ends a name"), &last, 3, 1));
    }
    let taken_in = with(&named(b"abc", &[31, b'd']), 0, NAME_LENGTH, 4);
    cases.push(calculation_refused("a name that takes in a bad byte", &taken_in, 3, 0));
    let not_taken_in = with(&named(b"abc", b"de"), 0, NAME_LENGTH, 4);
    cases.push(calculation_refused("a name that takes in a good byte", &not_taken_in, 3, 1));
    cases
}

fn turns() -> Vec<Case> {
    let first_name_byte = line_at(3, 6);
    let bad_name = edited(&right(), first_name_byte + 6, 1, 31);
    let bad_name_then_zero = with(&bad_name, 2, NUMBER, 0);
    let zero_then_left_over = with(&with(&right(), 2, LINE_COUNT, 2), 2, NUMBER, 0);
    let year_and_zero = edited(&with(&right(), 0, NUMBER, 0), 6, 2, 1989);
    let both_zero = with(&with(&right(), 0, NUMBER, 0), 1, NUMBER, 0);
    let repeated_then_zero = with(&with(&right(), 1, NUMBER, 10), 2, NUMBER, 0);
    let mut wrong_line = draft();
    wrong_line.sources[0].lines[0] = Line { kind: 0, ..wrong_line.sources[0].lines[0] };
    let wrong_line = with(&wrong_line.bytes(), 2, NUMBER, 0);
    vec![
        calculation_refused("bad name at 1, number 0 at 2", &bad_name_then_zero, 3, 1),
        calculation_refused("number 0 at 2, a line left over", &zero_then_left_over, 3, 2),
        calculation_refused("year 1989, number 0 at 0", &year_and_zero, 2, 6),
        calculation_refused("number 0 twice", &both_zero, 3, 0),
        calculation_refused("number repeated at 1, number 0 at 2", &repeated_then_zero, 3, 2),
        calculation_refused("line 0 wrong, number 0 at 2", &wrong_line, 3, 2),
    ]
}
