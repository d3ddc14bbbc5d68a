//! Removal: refusals 9, 13 and 8, and what is written.

use super::check::{largest, of_entries, report};
use super::{accepted, group, refused, Case, Group, A_LITTLE_ROOM};
use crate::call::Call;
use crate::draft::edited;
use crate::layout::{total_at, ENTRY_LENGTH, FIGURE_LENGTH};

pub fn groups() -> Vec<Group> {
    vec![
        group("Removals: first, middle, last, only, and of 512.", removed()),
        group("13: the number is absent.", absent()),
        group("9, 13 and 8, turn.", turns()),
        group("8: the room of a removal.", rooms()),
    ]
}

fn without(name: &str, report: &[u8], number: u32) -> Case {
    let length = report.len() - ENTRY_LENGTH;
    accepted(name, Call::remove(report, number, length), length as u64)
}

fn not_removed(name: &str, report: &[u8], number: u32, refusal: u64, place: u64) -> Case {
    let call = Call::remove(report, number, A_LITTLE_ROOM);
    refused(name, call, refusal, place)
}

fn removed() -> Vec<Case> {
    let three = report(&[3, 5, 7]);
    let all: Vec<u32> = (1..=512).collect();
    vec![
        without("the first of three", &three, 3),
        without("the middle of three", &three, 5),
        without("the last of three", &three, 7),
        without("the only one", &report(&[9]), 9),
        without("2^32 - 1", &report(&[1, u32::MAX]), u32::MAX),
        without("10^15 of 2 10^15", &of_entries(vec![largest(1), largest(2)]), 2),
        without("the last of 512", &report(&all), 512),
    ]
}

fn absent() -> Vec<Case> {
    let three = report(&[3, 5, 7]);
    vec![
        not_removed("before the first", &three, 1, 13, 1),
        not_removed("between two", &three, 4, 13, 4),
        not_removed("behind the last", &three, 8, 13, 8),
        not_removed("number 0", &three, 0, 13, 0),
        not_removed("2^32 - 1 of three", &three, u32::MAX, 13, 4_294_967_295),
        not_removed("equal in the lowest two bytes", &three, 65_539, 13, 65_539),
        not_removed("of the empty report", &report(&[]), 5, 13, 5),
        not_removed("0 of the empty report", &report(&[]), 0, 13, 0),
    ]
}

fn turns() -> Vec<Case> {
    let malformed = edited(&report(&[3, 5]), total_at(0), FIGURE_LENGTH, 0);
    vec![
        not_removed("malformed", &malformed, 3, 9, 1),
        not_removed("malformed, and the number absent", &malformed, 4, 9, 1),
        not_removed("no bytes", &[], 0, 9, 1),
        refused("absent, no room", Call::remove(&report(&[3]), 4, 0), 13, 4),
    ]
}

fn rooms() -> Vec<Case> {
    let from = report(&[3, 5]);
    let with = |room| Call::remove(&from, 5, room);
    vec![
        refused("one of two, no room", with(0), 8, 96),
        refused("one of two, one byte short", with(95), 8, 96),
        accepted("one of two, one byte more", with(97).filled_with(0), 96),
        accepted("one of two, room for both", with(136).filled_with(1), 96),
        refused("the only one, one byte short", Call::remove(&report(&[3]), 3, 55), 8, 56),
    ]
}
