//! Refusals 6 and 7, and the exact sums behind them.

use super::{calculation_accepted, calculation_refused, group, Case, Group};
use crate::draft::{boiler, line, register, source, DraftSource};
use crate::register::Line;

pub fn groups() -> Vec<Group> {
    vec![
        group("6: CO2 sums at zero and below it.", zero()),
        group("7: equivalents at 10^15 and above it.", limit()),
        group("6 and 7, turn: source by source.", turns()),
    ]
}

fn only(method: u8, parameter: u8, lines: &[Line]) -> Vec<u8> {
    register(2023, vec![source(1, method, parameter, lines)]).bytes()
}

fn accepted(name: &str, method: u8, parameter: u8, lines: &[Line]) -> Case {
    calculation_accepted(name, &only(method, parameter, lines), 1)
}

fn refused(name: &str, number: u64, method: u8, parameter: u8, lines: &[Line]) -> Case {
    calculation_refused(name, &only(method, parameter, lines), number, 0)
}

/// Carbon in tonnes, code 0 and B 10,000, as metals and petrochemicals have it.
fn carbon(kind: u8, content: u32, quantity: u64) -> Line {
    line(kind, 1, 0, content, 10_000, quantity)
}

fn dust(code: u16, b: u32) -> Line {
    line(21, 1, code, 1, b, 1)
}

fn zero() -> Vec<Case> {
    let charged = line(20, 1, 4, 1, 1, 1);
    vec![
        accepted("out before in, equal", 3, 0, &[carbon(11, 5, 7), carbon(10, 7, 5)]),
        refused("in and out, a millionth of a kg below", 6, 3, 0, &[carbon(10, 1, 1), carbon(11, 2, 1)]),
        accepted("in and out, a millionth of a kg above", 3, 0, &[carbon(10, 2, 1), carbon(11, 1, 1)]),
        refused("out alone", 6, 3, 0, &[carbon(11, 1, 1)]),
        refused("closing stock alone", 6, 3, 0, &[carbon(13, 1, 1)]),
        accepted("opening and closing stock, equal", 3, 0, &[carbon(13, 3, 4), carbon(12, 4, 3)]),
        refused("product alone", 6, 4, 1, &[carbon(11, 1, 1)]),
        refused("by-product alone", 6, 4, 5, &[carbon(14, 1, 1)]),
        accepted("feed, product and by-product, equal", 4, 2, &[carbon(11, 1, 1), carbon(14, 1, 1), carbon(10, 2, 1)]),
        accepted("dust without a measured share", 5, 0, &[dust(4, 10_000)]),
        refused("dust alone, the least there is", 6, 5, 0, &[dust(4, 9_999)]),
        accepted("dust and carbonate, equal", 5, 0, &[dust(4, 9_999), charged]),
        refused("dust of calcite, carbonate of iron", 6, 5, 0, &[dust(1, 9_999), charged]),
        refused(
            "a year's largest weights, one below",
            6,
            3,
            0,
            &[
                line(10, 2, 0, 99_999_999, 10_000, 10_000_000_000),
                line(11, 2, 0, 99_999_999, 10_000, 10_000_000_000),
                carbon(11, 1, 1),
            ],
        ),
    ]
}

fn methane(content: u32, quantity: u64) -> Line {
    line(2, 2, 0, content, 10_000, quantity)
}

/// A flare's gas with nothing unburned: A 136 and Q 1 are 0.498 g of CO2.
fn flared(content: u32, quantity: u64) -> Line {
    line(1, 2, 0, content, 0, quantity)
}

/// Methane whose 25-fold is 2^64 + 9: (2^64 + 9) / 25 grams.
fn wrapping_methane() -> Vec<Line> {
    let grams: u64 = 737_869_762_948_382_065;
    let a_line: u64 = 999_999_990_000_000;
    let mut lines = vec![methane(99_999_999, 10_000_000_000); (grams / a_line) as usize];
    let rest = grams % a_line;
    let quantity = 10_000_000_000;
    let content = rest * 1_000 / quantity;
    lines.push(methane(content as u32, quantity));
    lines.push(methane(1_000, rest - content * quantity / 1_000));
    lines
}

fn limit() -> Vec<Case> {
    let all = methane(4_000_000, 10_000_000_000);
    // 25 g of methane less than `all`: with 625 g of CO2 the equivalent is 10^15 again
    let fewer = [methane(3_999_999, 10_000_000_000), methane(1_000, 9_999_975)];
    let carbon_limit = [line(1, 2, 3, 27_292_576, 10_000, 10_000_000_000), line(1, 2, 3, 1, 10_000, 4_192_139_738)];
    let above = [carbon_limit[0], line(1, 2, 3, 1, 10_000, 4_192_139_738 + 137)];
    vec![
        refused("10^15 and over half a gram of CO2", 7, 2, 0, &[all, flared(137, 1)]),
        accepted("10^15 and under half a gram of CO2", 2, 0, &[all, flared(136, 1)]),
        accepted("methane and CO2 to 10^15", 2, 0, &[fewer[0], fewer[1], flared(170_579, 1)]),
        refused("methane and CO2 to 10^15 + 1", 7, 2, 0, &[fewer[0], fewer[1], flared(170_852, 1)]),
        accepted("CO2 alone, 10^15", 1, 0, &carbon_limit),
        refused("CO2 alone, 10^15 + 1", 7, 1, 0, &above),
        refused("methane whose 25-fold wraps to 9 g", 7, 2, 0, &wrapping_methane()),
        refused(
            "1,024 lines of the largest numbers",
            7,
            1,
            0,
            &[line(1, 2, 3, 99_999_999, 10_000, 10_000_000_000); 1_024],
        ),
        refused("acid, 38 lines of the largest quantity", 7, 6, 5, &[line(30, 1, 0, 0, 0, 10_000_000_000); 38]),
        accepted("acid, 37 lines of the largest quantity", 6, 5, &[line(30, 1, 0, 0, 0, 10_000_000_000); 37]),
    ]
}

fn turns() -> Vec<Case> {
    let below = |number| source(number, 3, 0, &[carbon(11, 1, 1)]);
    let above = |number| source(number, 2, 0, &[methane(4_000_001, 10_000_000_000)]);
    let of = |sources: Vec<DraftSource>| register(2023, sources).bytes();
    vec![
        calculation_refused("6 at source 1", &of(vec![boiler(9), below(1)]), 6, 1),
        calculation_refused("7 at source 2", &of(vec![boiler(9), boiler(8), above(1)]), 7, 2),
        calculation_refused("7 at 0 and 6 at 1", &of(vec![above(9), below(1)]), 7, 0),
        calculation_refused("6 at 0 and 7 at 1", &of(vec![below(9), above(1)]), 6, 0),
        calculation_refused("6 at 1 and 2", &of(vec![boiler(3), below(2), below(1)]), 6, 1),
    ]
}
