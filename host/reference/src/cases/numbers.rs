//! Refusal 4, and registers of the largest size.

use super::{calculation_accepted, calculation_refused, group, Case, Group};
use crate::draft::{boiler, boilers, register, source, Draft};

pub fn groups() -> Vec<Group> {
    vec![
        group("4: the first index whose number stood earlier.", repeated()),
        group("Registers of the largest size.", largest()),
    ]
}

fn repeated() -> Vec<Case> {
    let refused = |name, numbers: &[u32], place| calculation_refused(name, &boilers(numbers).bytes(), 4, place);
    let mut wrong_line = boilers(&[7, 8, 7]);
    wrong_line.sources[0].lines[0].kind = 0;
    let sources = vec![boiler(5).named(b"North"), boiler(5).named(b"South")];
    vec![
        calculation_accepted("numbers 1 and 2^32 - 1", &boilers(&[u32::MAX, 1]).bytes(), 2),
        refused("7, 7", &[7, 7], 1),
        refused("7, 8, 7", &[7, 8, 7], 2),
        refused("1, 2, 2, 1", &[1, 2, 2, 1], 2),
        refused("1, 2, 1, 2", &[1, 2, 1, 2], 2),
        refused("3, 3, 3", &[3, 3, 3], 1),
        refused("1, 65,537, 1", &[1, 65_537, 1], 2),
        calculation_refused("equal numbers, other names", &register(2023, sources).bytes(), 4, 1),
        calculation_refused("line 0 wrong, number repeated at 2", &wrong_line.bytes(), 4, 2),
    ]
}

/// 512 sources with 2 lines and a name of 32 bytes each: 45,088 bytes, numbers descending.
fn full() -> Draft {
    let sources = (1..=512u32).rev().map(|number| {
        let mut source = boiler(number).named(format!("{number:>32}").as_bytes());
        source.lines.push(source.lines[0]);
        source
    });
    register(2023, sources.collect())
}

fn largest() -> Vec<Case> {
    let full = full();
    let mut numbers: Vec<u32> = (1..=512).collect();
    numbers[511] = 1;
    let mut last_line_wrong = full.clone();
    last_line_wrong.sources[511].lines[1].b = 10_001;
    let one_source = register(2023, vec![source(1, 1, 0, &[boiler(1).lines[0]; 1_024])]);
    let one_more = [full.bytes(), b" ".to_vec()].concat();
    vec![
        calculation_accepted("512 sources, 45,088 bytes", &full.bytes(), 512),
        calculation_accepted("one source with 1,024 lines", &one_source.bytes(), 1),
        calculation_refused("the last of 512 repeats the first", &boilers(&numbers).bytes(), 4, 511),
        calculation_refused("1,024 lines, the last is wrong", &last_line_wrong.bytes(), 5, 1_023),
        calculation_refused("45,089 bytes", &one_more, 2, 28),
    ]
}
