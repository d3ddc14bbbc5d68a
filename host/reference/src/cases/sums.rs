//! Known sums, document 01's own example, and rooms.

use super::{accepted, calculation_accepted, group, refused, Case, Group};
use crate::call::Call;
use crate::draft::{boilers, Draft};
use crate::layout::report_length;
use crate::report::Report;
use crate::sums::{by_hand, factors, printed, rounding, Known, Sum};

pub fn groups() -> Vec<Group> {
    vec![
        group("Document 01's sums done by hand, each as the only source of a register.", known(by_hand())),
        group("Rows of the source documents that print a carbon content and its CO2 factor.", known(printed())),
        group("Rounding: once for each gas of a source, an exact half upward.", known(rounding())),
        group("Every carbonate, a quarter of it in the dust, and every acid plant.", known(factors())),
        group("Document 01's example: sources 8 and 7, equal in name and line; and the empty register.", example()),
        group("The room of a calculation: exact, one short, none, longer.", rooms()),
    ]
}

fn known(sums: Vec<Sum>) -> Vec<Case> {
    sums.iter()
        .map(|sum| {
            let call = Call::calculate(&sum.register(), report_length(1));
            match sum.known {
                Known::Grams(..) => accepted(sum.name, call, report_length(1) as u64),
                Known::Refused(number) => refused(sum.name, call, number.into(), 0),
            }
        })
        .collect()
}

fn two_boilers() -> Vec<u8> {
    boilers(&[8, 7]).bytes()
}

fn empty() -> Draft {
    boilers(&[])
}

fn example() -> Vec<Case> {
    let mut report = [0; report_length(2)];
    crate::calls::calculate(&two_boilers(), &mut report);
    let nothing = Report::of(2023, vec![]).bytes();
    vec![
        calculation_accepted("two boilers", &two_boilers(), 2),
        accepted("two boilers as text", Call::text(&report, 93), 93),
        calculation_accepted("the empty register", &empty().bytes(), 0),
        accepted("the empty report as text", Call::text(&nothing, 15), 15),
    ]
}

fn rooms() -> Vec<Case> {
    let boilers = |room| Call::calculate(&two_boilers(), room);
    let empty = |room| Call::calculate(&empty().bytes(), room);
    vec![
        refused("two boilers, no room", boilers(0), 8, 136),
        refused("two boilers, room for the header", boilers(56), 8, 136),
        refused("two boilers, one byte short", boilers(135), 8, 136),
        accepted("two boilers, one byte more", boilers(137), 136),
        accepted("two boilers, 64 bytes more, zeros", boilers(200).filled_with(0), 136),
        accepted("two boilers, 64 bytes more, 255", boilers(200).filled_with(255), 136),
        refused("empty register, no room", empty(0), 8, 56),
        refused("empty register, one byte short", empty(55), 8, 56),
        accepted("empty register, one byte more", empty(57), 56),
    ]
}
