//! Names, over one register and over two.

use super::{case, group, Case, Group};
use crate::call::Call;
use crate::draft::{boiler, boilers, edited, register, Draft};
use crate::layout::source_at;

pub fn groups() -> Vec<Group> {
    vec![
        group("Names found, and their place in the register.", found()),
        group("No name: the number is absent, or the register refused by 1 to 4.", not_found()),
        group("Lines are not judged: names of registers that calculation refuses with 5, 6 or 7.", unjudged()),
        group("Names over two registers.", of_two()),
    ]
}

fn plant() -> Draft {
    let sources = vec![boiler(8).named(b"Kiln"), boiler(7).named(b"Flare 2"), boiler(9).named(b"K")];
    register(2023, sources)
}

fn contractor() -> Draft {
    let sources = vec![boiler(20).named(b"Crane"), boiler(7).named(b"Van")];
    register(2022, sources)
}

fn part(name: &str, register: &[u8], number: u32, offset: u64, length: u64) -> Case {
    case(name, Call::name(register, number), &[offset, length])
}

fn none(name: &str, register: &[u8], number: u32) -> Case {
    part(name, register, number, 0, 0)
}

fn found() -> Vec<Case> {
    let plant = plant().bytes();
    let many: Vec<u32> = (1..=512).rev().collect();
    let many = boilers(&many).bytes();
    let names_at = 32 + 36 * 512;
    vec![
        part("the first", &plant, 8, 140, 4),
        part("the second", &plant, 7, 144, 7),
        part("the last", &plant, 9, 151, 1),
        part("one of two equal names", &boilers(&[8, 7]).bytes(), 7, 116, 12),
        part("2^32 - 1", &boilers(&[u32::MAX]).bytes(), u32::MAX, 68, 12),
        part("the last of 512", &many, 1, names_at + 12 * 511, 12),
    ]
}

fn not_found() -> Vec<Case> {
    let plant = plant().bytes();
    let with = |place, width, value| edited(&plant, place, width, value);
    let mut left_over = boilers(&[7]);
    left_over.name_bytes_left_over = b"?".to_vec();
    vec![
        none("absent", &plant, 10),
        none("number 0", &plant, 0),
        none("equal in the lowest three bytes", &plant, 0x0100_0007),
        none("the empty register", &boilers(&[]).bytes(), 7),
        none("no bytes", &[], 7),
        none("31 bytes", &plant[..31], 7),
        none("cut by a byte", &plant[..plant.len() - 1], 7),
        none("year 1989", &with(6, 2, 1989), 7),
        none("a later entry wrong", &with(source_at(2) + 4, 1, 0), 7),
        none("a bad byte in another name", &with(140, 1, 31), 7),
        none("number 0 in the register, and asked for", &with(source_at(1), 4, 0), 0),
        none("a name byte left over", &left_over.bytes(), 7),
        none("a repeated number, itself", &boilers(&[7, 7]).bytes(), 7),
        none("a repeated number, another", &boilers(&[7, 8, 8]).bytes(), 7),
    ]
}

fn unjudged() -> Vec<Case> {
    let mut wrong_line = plant();
    wrong_line.sources[0].lines[0].kind = 99;
    let mut below_zero = plant();
    below_zero.sources[1].method = 3;
    below_zero.sources[1].lines[0].kind = 11;
    below_zero.sources[1].lines[0].code = 0;
    let mut above_limit = plant();
    above_limit.sources[2].lines[0].unit = 2;
    above_limit.sources[2].lines[0].a = 99_999_999;
    above_limit.sources[2].lines[0].quantity = 10_000_000_000;
    vec![
        part("a wrong line", &wrong_line.bytes(), 8, 140, 4),
        part("a sum below zero", &below_zero.bytes(), 7, 144, 7),
        part("an equivalent above 10^15", &above_limit.bytes(), 9, 151, 1),
        super::calculation_refused("the first of these, calculated", &wrong_line.bytes(), 5, 0),
        super::calculation_refused("the second, calculated", &below_zero.bytes(), 6, 1),
        super::calculation_refused("the third, calculated", &above_limit.bytes(), 7, 2),
    ]
}

fn two(name: &str, plant: &[u8], contractor: &[u8], number: u32, part: [u64; 3]) -> Case {
    case(name, Call::name_of_two(plant, contractor, number), &part)
}

fn of_two() -> Vec<Case> {
    const NONE: [u64; 3] = [1, 0, 0];
    let (plant, contractor) = (plant().bytes(), contractor().bytes());
    let refused = edited(&contractor, 4, 2, 2);
    let empty = boilers(&[]).bytes();
    vec![
        two("in the plant's", &plant, &contractor, 8, [1, 140, 4]),
        two("in the contractor's", &plant, &contractor, 20, [2, 104, 5]),
        two("the other way round", &contractor, &plant, 20, [1, 104, 5]),
        two("the other way round, second", &contractor, &plant, 8, [2, 140, 4]),
        two("in both", &plant, &contractor, 7, NONE),
        two("in neither", &plant, &contractor, 1, NONE),
        two("number 0 of two", &plant, &contractor, 0, NONE),
        two("one register twice", &plant, &plant, 8, NONE),
        two("the contractor's refused", &plant, &refused, 8, NONE),
        two("the plant's refused", &refused, &plant, 8, NONE),
        two("both refused", &refused, &[], 20, NONE),
        two("the contractor's empty", &plant, &empty, 9, [1, 151, 1]),
        two("the plant's empty", &empty, &contractor, 20, [2, 104, 5]),
        two("both empty", &empty, &empty, 7, NONE),
        two("no bytes and a register", &[], &plant, 8, NONE),
        two("a repeated number in the other", &plant, &boilers(&[1, 1]).bytes(), 8, NONE),
    ]
}
