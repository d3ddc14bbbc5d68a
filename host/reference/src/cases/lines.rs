//! Refusal 5.

use super::{calculation_accepted, calculation_refused, group, Case, Group};
use crate::draft::{boiler, line, register, source, DraftSource};
use crate::register::Line;

pub fn groups() -> Vec<Group> {
    vec![
        group(
            "5: of each kind the lines it takes, both ends of every field in one register; and lines with one field next to these.",
            kinds(),
        ),
        group("5: by-products go by the parameter.", by_products()),
        group("5, turn: the first wrong line of all, before 6, 7 and 8.", turns()),
    ]
}

/// A kind with a line of quantity 0 that is right; kinds that the method does not have; and of a field, while the
/// others stay, what is right and what is wrong.
struct Kind {
    name: &'static str,
    method: u8,
    parameter: u8,
    line: Line,
    strangers: &'static [u8],
    units: [&'static [u8]; 2],
    codes: [&'static [u16]; 2],
    b: [&'static [u32]; 2],
}

const ANY_UNIT: [&[u8]; 2] = [&[1, 2, 3, 4], &[0, 5]];
const UNITS_1_AND_2: [&[u8]; 2] = [&[1, 2], &[0, 3, 4]];
const UNIT_1: [&[u8]; 2] = [&[1], &[0, 2, 3, 4]];
const CODE_0: [&[u16]; 2] = [&[0], &[1, 256]];
const FUEL_CODES: [&[u16]; 2] = [&[1, 2], &[0, 4]];
const CARBONATE_CODES: [&[u16]; 2] = [&[1, 2, 3, 4], &[0, 5, 257]];
const ANY_B: [&[u32]; 2] = [&[0, 1, 9_999, 10_000], &[10_001]];
const ALL_B: [&[u32]; 2] = [&[10_000], &[0, 9_999, 10_001]];

#[rustfmt::skip]
fn all_kinds() -> [Kind; 15] {
    let carbon = |kind| line(kind, 1, 0, 500_000, 10_000, 0);
    let fuel = |code, b| line(1, 1, code, 500_000, b, 0);
    let flare = |kind| line(kind, 1, 0, 500_000, 50, 0);
    let carbonate = |kind| line(kind, 1, 1, 500_000, 9_000, 0);
    let acid = line(30, 1, 0, 0, 0, 0);
    let of = |name, (method, parameter), line, strangers, (units, codes, b)| {
        Kind { name, method, parameter, line, strangers, units, codes, b }
    };
    [
        of("fuel, gas", (1, 0), fuel(1, 10_000), &[0, 2, 10, 255], (ANY_UNIT, FUEL_CODES, ALL_B)),
        of("fuel, liquid", (1, 0), fuel(2, 10_000), &[], (ANY_UNIT, FUEL_CODES, ALL_B)),
        of("fuel, solid", (1, 0), fuel(3, 9_800), &[], (ANY_UNIT, [&[3], &[0, 1, 2, 4]], ANY_B)),
        of("flare", (2, 0), flare(1), &[0, 3, 10], (UNITS_1_AND_2, CODE_0, ANY_B)),
        of("flare, methane", (2, 0), flare(2), &[], (UNITS_1_AND_2, CODE_0, ANY_B)),
        of("metals, in", (3, 0), carbon(10), &[1, 9, 14, 20, 30], (ANY_UNIT, CODE_0, ALL_B)),
        of("metals, out", (3, 0), carbon(11), &[], (ANY_UNIT, CODE_0, ALL_B)),
        of("metals, opening", (3, 0), carbon(12), &[], (ANY_UNIT, CODE_0, ALL_B)),
        of("metals, closing", (3, 0), carbon(13), &[], (ANY_UNIT, CODE_0, ALL_B)),
        of("petro, feed", (4, 6), carbon(10), &[1, 12, 13, 15], (ANY_UNIT, CODE_0, ALL_B)),
        of("petro, by-product", (4, 2), carbon(14), &[], (ANY_UNIT, CODE_0, ALL_B)),
        of("cement, carbonate", (5, 0), carbonate(20), &[19, 23], (UNIT_1, CARBONATE_CODES, ANY_B)),
        of("cement, dust", (5, 0), carbonate(21), &[], (UNIT_1, CARBONATE_CODES, ANY_B)),
        of("cement, carbon", (5, 0), carbon(22), &[1, 10, 30], (UNIT_1, CODE_0, ALL_B)),
        of("acid", (6, 3), acid, &[0, 1, 22, 29, 31], (UNIT_1, CODE_0, [&[0], &[1, 10_000]])),
    ]
}

/// "A is in millionths: at most 1,000,000 where the unit is tonne, else at most 99,999,999."
fn most_content(unit: u8) -> u32 {
    match unit {
        1 => 1_000_000,
        _ => 99_999_999,
    }
}

impl Kind {
    /// Lines with a field changed to a value that is right (0) or wrong (1), and what was changed.
    fn variants(&self, which: usize) -> Vec<(String, Line)> {
        let like = self.line;
        let mut variants = vec![];
        for &unit in self.units[which] {
            variants.push((format!("unit {unit}"), Line { unit, ..like }));
        }
        for &code in self.codes[which] {
            variants.push((format!("code {code}"), Line { code, ..like }));
        }
        for &b in self.b[which] {
            variants.push((format!("B {b}"), Line { b, ..like }));
        }
        variants
    }

    /// The largest A of each unit. Nitric acid has none.
    fn largest_contents(&self) -> Vec<Line> {
        let content = |unit| {
            if self.method == 6 {
                0
            } else {
                most_content(unit)
            }
        };
        let units = self.units[0].iter();
        units.map(|&unit| Line { unit, a: content(unit), ..self.line }).collect()
    }

    /// With A 0, so that the largest quantity has no mass above the limit.
    fn with_quantity(&self, quantity: u64) -> Line {
        Line { a: 0, quantity, ..self.line }
    }

    fn right_lines(&self) -> Vec<Line> {
        let mut lines: Vec<Line> = self.variants(0).into_iter().map(|(_, line)| line).collect();
        lines.extend(self.largest_contents());
        lines.extend([0, 1, 10_000_000_000].map(|quantity| self.with_quantity(quantity)));
        lines
    }

    fn wrong_lines(&self) -> Vec<(String, Line)> {
        let mut lines = self.variants(1);
        let contents = self.largest_contents();
        let first_and_last_unit = contents.len().max(2) - 1;
        for &line in contents.iter().step_by(first_and_last_unit) {
            let name = format!("unit {}, A {}", line.unit, line.a + 1);
            lines.push((name, Line { a: line.a + 1, ..line }));
        }
        lines.push(("Q 10^10 + 1".to_string(), self.with_quantity(10_000_000_001)));
        for &kind in self.strangers {
            lines.push((format!("kind {kind}"), Line { kind, ..self.line }));
        }
        lines
    }

    /// A register in which the lines stand behind a boiler's one line.
    fn register(&self, lines: &[Line]) -> Vec<u8> {
        let judged = source(2, self.method, self.parameter, lines);
        register(2023, vec![boiler(1), judged]).bytes()
    }
}

fn kinds() -> Vec<Case> {
    let mut cases = vec![];
    for kind in all_kinds() {
        let register = kind.register(&kind.right_lines());
        cases.push(calculation_accepted(format!("{}, every end", kind.name), &register, 2));
        for (field, line) in kind.wrong_lines() {
            let register = kind.register(&[kind.line, line]);
            cases.push(calculation_refused(format!("{}, {field}", kind.name), &register, 5, 2));
        }
    }
    cases
}

fn by_products() -> Vec<Case> {
    let lines = [10, 11, 14].map(|kind| line(kind, 1, 0, 500_000, 10_000, 0));
    let of = |parameter| register(2023, vec![source(1, 4, parameter, &lines)]).bytes();
    let mut cases = vec![];
    for parameter in [2, 5] {
        cases.push(calculation_accepted(format!("parameter {parameter}"), &of(parameter), 1));
    }
    for parameter in [1, 3, 4, 6] {
        cases.push(calculation_refused(format!("parameter {parameter}"), &of(parameter), 5, 2));
    }
    cases
}

fn turns() -> Vec<Case> {
    let right = boiler(1).lines[0];
    let wrong = Line { unit: 9, ..right };
    let fuel = |number, lines: [Line; 2]| source(number, 1, 0, &lines);
    let below_zero = source(3, 3, 0, &[line(11, 1, 0, 1, 10_000, 1)]);
    let above_limit = source(4, 2, 0, &[line(2, 2, 0, 4_000_001, 10_000, 10_000_000_000)]);
    let of = |sources: [DraftSource; 2]| register(2023, sources.to_vec()).bytes();
    let three_wrong = of([fuel(1, [right, wrong]), fuel(2, [wrong, wrong])]);
    let last_wrong = of([fuel(1, [right, right]), fuel(2, [right, wrong])]);
    let after_six = of([below_zero, fuel(1, [right, wrong])]);
    let after_seven = of([above_limit, fuel(1, [wrong, right])]);
    vec![
        calculation_refused("lines 1, 2 and 3 wrong", &three_wrong, 5, 1),
        calculation_refused("the second source's second line", &last_wrong, 5, 3),
        calculation_refused("source 0 below zero, line 2 wrong", &after_six, 5, 2),
        calculation_refused("source 0 above 10^15, line 1 wrong", &after_seven, 5, 1),
    ]
}
