//! Files on which the front door is tried: registers and stock cards, and what it must make of them.

use crate::answers::Answer;
use crate::calls;
use crate::cards::Card;
use crate::draft::{boiler, boiler_line, boilers, cards, line, register, source, Draft};
use crate::examples::{self, stores, STORES};
use crate::layout::{MOST_REPORT_LENGTH, SOURCES_AT};

/// The samples and their file names.
pub fn all() -> Vec<(&'static str, Vec<u8>)> {
    let [(_, boilers), (_, works)] = examples::all();
    let two_boilers = report_of(&boilers);
    let every_method = report_of(&works);
    let mut samples = vec![
        ("both.report", made(|buffer| calls::combine(&two_boilers, &every_method, buffer))),
        ("one-boiler.report", made(|buffer| calls::remove(&two_boilers, 8, buffer))),
        ("2024.report", report_of(&register(2024, vec![boiler(9)]).bytes())),
        ("256.report", report_of(&many(1..=256))),
        ("257.report", report_of(&many(1001..=1257))),
        ("odd-names.register", odd_names().bytes()),
    ];
    samples.push(("two-boilers.report", two_boilers));
    samples.push(("every-method.report", every_method));
    samples.extend(refused(&boilers));
    samples.extend(of_cards());
    samples
}

fn made(call: impl FnOnce(&mut [u8]) -> Answer) -> Vec<u8> {
    let mut buffer = vec![0; MOST_REPORT_LENGTH];
    let answer = call(&mut buffer);
    assert_eq!(answer.number, 0, "a sample is accepted");
    buffer.truncate(answer.length as usize);
    buffer
}

fn report_of(register: &[u8]) -> Vec<u8> {
    made(|buffer| calls::calculate(register, buffer))
}

fn many(numbers: std::ops::RangeInclusive<u32>) -> Vec<u8> {
    boilers(&numbers.collect::<Vec<u32>>()).bytes()
}

/// Names that a script might take for something else, and each byte that a name may have from 128 up.
fn odd_names() -> Draft {
    let low: Vec<u8> = (128..=191).collect();
    let high: Vec<u8> = (192..=255).collect();
    let names: [&[u8]; 8] = [b"refused 1 0", b"accepted 96", &low, &high, b" ", b"-n", b"\\n%s", b"ends in spaces  "];
    let sources = names.iter().enumerate().map(|(index, name)| boiler(1 + index as u32).named(name));
    register(2023, sources.collect())
}

/// A register for each of the refusals 1 to 7.
fn refused(boilers_bytes: &[u8]) -> [(&'static str, Vec<u8>); 7] {
    let mut other_layout = boilers_bytes.to_vec();
    other_layout[4] = 2;
    let above_range = line(1, 1, 3, 800_000, 10_001, 1_000_000);
    let more_out = [line(10, 1, 0, 900_000, 10_000, 1_000_000), line(11, 1, 0, 900_001, 10_000, 1_000_000)];
    let methane = line(2, 2, 0, 4_000_001, 10_000, 10_000_000_000);
    let with_boiler = |other| register(2023, vec![boiler(7), other]).bytes();
    [
        ("refused-1.register", boilers_bytes[..SOURCES_AT - 1].to_vec()),
        ("refused-2.register", other_layout),
        ("refused-3.register", boilers(&[7, 0]).bytes()),
        ("refused-4.register", boilers(&[7, 8, 7]).bytes()),
        ("refused-5.register", with_boiler(source(8, 1, 0, &[boiler_line(), above_range]))),
        ("refused-6.register", with_boiler(source(8, 3, 0, &more_out))),
        ("refused-7.register", with_boiler(source(8, 2, 0, &[methane]))),
    ]
}

/// The amounts of the example's stock cards; no cards; and cards for the refusals 14, of an entry and of the length,
/// and 15: a weight in grams for kilograms, a line feed at the end, opening and closing stock exchanged.
fn of_cards() -> [(&'static str, Vec<u8>); 5] {
    let mut in_grams = STORES.map(|(_, card)| card);
    in_grams[2].received *= 1_000;
    let mut exchanged = STORES.map(|(_, card)| card);
    exchanged[4] = Card { opening: exchanged[4].closing, closing: exchanged[4].opening, ..exchanged[4] };
    [
        ("stores.amounts", made(|buffer| calls::amounts(&stores(), buffer))),
        ("no.cards", vec![]),
        ("refused-14.cards", cards(&in_grams)),
        ("refused-14-length.cards", [&stores()[..], b"\n"].concat()),
        ("refused-15.cards", cards(&exchanged)),
    ]
}
