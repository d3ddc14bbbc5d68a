//! Combining: refusals 9 to 12 and 8, and what is written.

use super::check::{self, entry, largest, of_entries, report};
use super::{accepted, group, refused, Case, Group, A_LITTLE_ROOM};
use crate::call::Call;
use crate::draft::edited;
use crate::layout::{total_at, ENTRIES_AT, FIGURE_LENGTH, GASES};

pub fn groups() -> Vec<Group> {
    vec![
        group("Combinations: interleaved, all before, all after, with the empty report.", combined()),
        group("9 to 12: each by itself.", wrong()),
        group("9: each condition of well-formed broken in the first, in the second, in both.", malformed_of_two()),
        group("9 to 12, turn: two of them at once, and little room.", turns()),
        group("Combinations at the largest count.", largest_counts()),
        group("8: the room of a combination.", rooms()),
    ]
}

fn joined(name: &str, first: &[u8], second: &[u8]) -> Case {
    let length = first.len() + second.len() - ENTRIES_AT;
    accepted(name, Call::combine(first, second, length), length as u64)
}

fn not_joined(name: &str, first: &[u8], second: &[u8], number: u64, place: u64) -> Case {
    let call = Call::combine(first, second, A_LITTLE_ROOM);
    refused(name, call, number, place)
}

fn combined() -> Vec<Case> {
    let empty = report(&[]);
    vec![
        joined("interleaved", &report(&[1, 4, 5]), &report(&[2, 3, 6])),
        joined("interleaved, the other way round", &report(&[2, 3, 6]), &report(&[1, 4, 5])),
        joined("all before", &report(&[1, 2]), &report(&[3, 4])),
        joined("all after", &report(&[3, 4]), &report(&[1, 2])),
        joined("one between two", &report(&[1, 3]), &report(&[2])),
        joined("two around one", &report(&[2]), &report(&[1, 3])),
        joined("numbers that differ in their highest byte", &report(&[1, 0x0200_0000]), &report(&[0x0100_0000])),
        joined("empty, then two", &empty, &report(&[1, 2])),
        joined("two, then empty", &report(&[1, 2]), &empty),
        joined("empty and empty", &empty, &empty),
        joined("two of 10^15", &of_entries(vec![largest(1)]), &of_entries(vec![largest(2)])),
        joined("sources without emissions", &of_entries(vec![entry(2, 0)]), &of_entries(vec![entry(1, 0)])),
    ]
}

fn other_year(report: &[u8]) -> Vec<u8> {
    edited(report, 6, 2, 2024)
}

fn malformed(report: &[u8]) -> Vec<u8> {
    edited(report, total_at(GASES), FIGURE_LENGTH, 0)
}

fn wrong() -> Vec<Case> {
    let (one, two) = (report(&[1, 2]), report(&[3, 4]));
    vec![
        not_joined("first malformed", &malformed(&one), &two, 9, 1),
        not_joined("second malformed", &one, &malformed(&two), 9, 2),
        not_joined("both malformed", &malformed(&one), &malformed(&two), 9, 1),
        not_joined("no bytes first", &[], &two, 9, 1),
        not_joined("no bytes second", &one, &[], 9, 2),
        not_joined("years differ", &one, &other_year(&two), 10, 0),
        not_joined("years differ, both empty", &report(&[]), &other_year(&report(&[])), 10, 0),
        not_joined("a report with itself", &one, &one, 11, 1),
        not_joined("last of the first, first of the second", &one, &report(&[2, 3]), 11, 2),
        not_joined("first of the first, last of the second", &report(&[5, 6]), &report(&[3, 5]), 11, 5),
        not_joined("two in both, the smaller", &report(&[1, 6, 9]), &report(&[2, 6, 9]), 11, 6),
        not_joined("2^32 - 1 in both", &report(&[1, u32::MAX]), &report(&[2, u32::MAX]), 11, 4_294_967_295),
        not_joined(
            "equal numbers, other masses",
            &of_entries(vec![entry(7, 1)]),
            &of_entries(vec![entry(7, 2)]),
            11,
            7,
        ),
    ]
}

fn malformed_of_two() -> Vec<Case> {
    let right = report(&[1, 2]);
    let each = check::malformed().into_iter().flat_map(|(name, wrong)| {
        [
            not_joined(&format!("{name}, first"), &wrong, &right, 9, 1),
            not_joined(&format!("{name}, second"), &right, &wrong, 9, 2),
            not_joined(&format!("{name}, both"), &wrong, &wrong, 9, 1),
        ]
    });
    each.collect()
}

fn turns() -> Vec<Case> {
    let one = report(&[1, 2]);
    let many: Vec<u32> = (1..=300).collect();
    let others: Vec<u32> = (300..=599).collect();
    vec![
        not_joined("second malformed and of another year", &one, &malformed(&other_year(&one)), 9, 2),
        not_joined("another year, equal numbers", &one, &other_year(&one), 10, 0),
        not_joined("300 and 300, one number in both", &report(&many), &report(&others), 11, 300),
        not_joined("another year, 300 and 300", &report(&many), &other_year(&report(&others)), 10, 0),
    ]
}

fn largest_counts() -> Vec<Case> {
    let odd: Vec<u32> = (0..256).map(|i| 2 * i + 1).collect();
    let even: Vec<u32> = (1..=256).map(|i| 2 * i).collect();
    let one_more: Vec<u32> = (1..=257).map(|i| 2 * i).collect();
    let all: Vec<u32> = (1..=512).collect();
    vec![
        joined("256 and 256", &report(&odd), &report(&even)),
        not_joined("256 and 257", &report(&odd), &report(&one_more), 12, 513),
        not_joined("512 and 1", &report(&all), &report(&[513]), 12, 513),
        not_joined("1 and 512", &report(&[513]), &report(&all), 12, 513),
        joined("512 and none", &report(&all), &report(&[])),
    ]
}

fn rooms() -> Vec<Case> {
    let with = |room| Call::combine(&report(&[1, 3]), &report(&[2]), room);
    let empty = |room| Call::combine(&report(&[]), &report(&[]), room);
    vec![
        refused("2 and 1, no room", with(0), 8, 176),
        refused("2 and 1, one byte short", with(175), 8, 176),
        accepted("2 and 1, one byte more", with(177).filled_with(0), 176),
        accepted("2 and 1, 40 bytes more", with(216).filled_with(1), 176),
        refused("empty and empty, one byte short", empty(55), 8, 56),
        accepted("empty and empty, one byte more", empty(57), 56),
    ]
}
