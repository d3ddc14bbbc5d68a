//! A report as text.

use super::check::{entry, largest, of_entries, report};
use super::{accepted, group, refused, Case, Group, A_LITTLE_ROOM};
use crate::call::Call;
use crate::draft::edited;
use crate::masses::Masses;
use crate::report::Entry;

pub fn groups() -> Vec<Group> {
    vec![group("A report's text: lines, widths of numbers, refusals and room.", texts())]
}

fn texts() -> Vec<Case> {
    let masses = Masses { co2: 10, ch4: 99, n2o: 100 };
    let all_gases = of_entries(vec![Entry { number: 1_000_000, method: 6, masses }]);
    let most = of_entries(vec![largest(1), largest(u32::MAX)]);
    let all: Vec<Entry> = (1..=512).map(largest).collect();
    let small = of_entries(vec![entry(1, 0)]);
    let malformed = edited(&small, 4, 2, 2);
    vec![
        accepted("a source without emissions", Call::text(&small, 27), 27),
        accepted("every gas", Call::text(&all_gases, 49), 49),
        accepted("10^15 twice, the widest numbers", Call::text(&most, 138), 138),
        accepted("512 entries of 10^15", Call::text(&of_entries(all), 22_471), 22_471),
        accepted("year 1990, one byte more", Call::text(&edited(&small, 6, 2, 1990), 28), 27),
        accepted("nine bytes more, zeros", Call::text(&small, 36).filled_with(0), 27),
        refused("text, one byte short", Call::text(&small, 26), 8, 27),
        refused("text, no room", Call::text(&report(&[]), 0), 8, 15),
        refused("text of a malformed report", Call::text(&malformed, A_LITTLE_ROOM), 9, 1),
        refused("text of no bytes, no room", Call::text(&[], 0), 9, 1),
    ]
}
