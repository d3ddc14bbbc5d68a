//! Refusals 1 and 2.

use super::{calculation_accepted, calculation_refused, group, Case, Group};
use crate::draft::{boilers, edited};

/// Two sources, two lines, 24 name bytes: 128 bytes.
fn right() -> Vec<u8> {
    boilers(&[8, 7]).bytes()
}

pub fn groups() -> Vec<Group> {
    vec![
        group("1: a register under 32 bytes, whatever the bytes are.", short()),
        group("2: each header field just outside what it must be.", wrong_fields()),
        group("2: counts in range that disagree with the offsets behind them.", disagreeing()),
        group("2: the bytes lent are not as many as the header says.", lengths()),
        group("2, turn: a header field and one of the next two wrong, the first is answered.", pairs()),
        group("Years at both ends.", ends()),
    ]
}

fn short() -> Vec<Case> {
    let right = right();
    vec![
        calculation_refused("no bytes", &[], 1, 0),
        calculation_refused("one byte", &right[..1], 1, 0),
        calculation_refused("31 bytes of a register", &right[..31], 1, 0),
        calculation_refused("31 zeros", &[0; 31], 1, 0),
        calculation_refused("32 zeros", &[0; 32], 2, 0),
    ]
}

/// A header field: its name, first byte, width, and values that are wrong whatever the rest is.
const FIELDS: [(&str, usize, usize, &[u64]); 10] = [
    ("tag", 0, 4, &[0]),
    ("layout", 4, 2, &[0, 2, 257]),
    ("year", 6, 2, &[0, 1989, 2101, 65_535]),
    ("sources", 8, 2, &[513, 65_535]),
    ("lines", 10, 2, &[1_025, 65_535]),
    ("name bytes", 12, 4, &[16_385, 0xFFFF_FFFF]),
    ("offset of sources", 16, 4, &[0, 31, 33]),
    ("offset of lines", 20, 4, &[63, 65]),
    ("offset of names", 24, 4, &[103, 105]),
    ("whole length", 28, 4, &[127, 129, 0xFFFF_FFFF]),
];

fn wrong_fields() -> Vec<Case> {
    let mut cases = wrong_tags();
    for (name, place, width, values) in FIELDS {
        for &value in values {
            let register = edited(&right(), place, width, value);
            let name = format!("{name} {value}");
            cases.push(calculation_refused(name, &register, 2, place as u64));
        }
    }
    cases
}

fn wrong_tags() -> Vec<Case> {
    let tags = ["FREG", "GSEG", "GRFG", "GREH", "GREP", "greg"];
    let register = |tag: &str| [tag.as_bytes(), &right()[4..]].concat();
    tags.iter().map(|tag| calculation_refused(format!("tag {tag}"), &register(tag), 2, 0)).collect()
}

fn disagreeing() -> Vec<Case> {
    let stated = |place, width, value| edited(&right(), place, width, value);
    vec![
        calculation_refused("one source too many", &stated(8, 2, 3), 2, 20),
        calculation_refused("one source too few", &stated(8, 2, 1), 2, 20),
        calculation_refused("512 sources stated", &stated(8, 2, 512), 2, 20),
        calculation_refused("one line too many", &stated(10, 2, 3), 2, 24),
        calculation_refused("one line too few", &stated(10, 2, 1), 2, 24),
        calculation_refused("1,024 lines stated", &stated(10, 2, 1_024), 2, 24),
        calculation_refused("one name byte too many", &stated(12, 4, 25), 2, 28),
        calculation_refused("one name byte too few", &stated(12, 4, 23), 2, 28),
        calculation_refused("16,384 name bytes stated", &stated(12, 4, 16_384), 2, 28),
    ]
}

fn lengths() -> Vec<Case> {
    let right = right();
    let longer = [&right[..], &[0]].concat();
    let cut_and_stated = edited(&right[..127], 28, 4, 127);
    let longer_and_stated = edited(&longer, 28, 4, 129);
    vec![
        calculation_refused("cut to the header", &right[..32], 2, 28),
        calculation_refused("cut to 40 bytes", &right[..40], 2, 28),
        calculation_refused("cut by one byte", &right[..127], 2, 28),
        calculation_refused("one byte more", &longer, 2, 28),
        calculation_refused("cut by one byte, and says so", &cut_and_stated, 2, 28),
        calculation_refused("one byte more, and says so", &longer_and_stated, 2, 28),
        calculation_refused("longer than any register", &[&right[..], &[65; 44_961]].concat(), 2, 28),
    ]
}

fn pairs() -> Vec<Case> {
    let mut cases = vec![];
    for (index, (first, place, width, values)) in FIELDS.into_iter().enumerate() {
        for (second, later_place, later_width, later_values) in FIELDS.iter().skip(index + 1).take(2) {
            let register = edited(&right(), place, width, values[0]);
            let register = edited(&register, *later_place, *later_width, later_values[0]);
            let name = format!("{first}; {second}");
            cases.push(calculation_refused(name, &register, 2, place as u64));
        }
    }
    cases
}

fn ends() -> Vec<Case> {
    let of_year = |year| edited(&right(), 6, 2, year);
    vec![calculation_accepted("year 1990", &of_year(1990), 2), calculation_accepted("year 2100", &of_year(2100), 2)]
}
