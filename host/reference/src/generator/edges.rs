//! Sources at the edges of rounding and of refusals 6 and 7.

use super::random::Random;
use super::registers;
use crate::draft::{line, source, Draft, DraftSource};
use crate::masses::{MOST_EQUIVALENT, WARMING};
use crate::methods::MOST_QUANTITY;
use crate::register::Line;

/// A register with a source at an edge among valid ones.
pub fn register(random: &mut Random, turn: u64) -> Draft {
    let edges = [half_of_co2, half_of_ch4, half_of_n2o, zero_of_metals, zero_of_cement, limit];
    let mut draft = registers::valid_of_some(random);
    let place = random.index(draft.sources.len());
    let edge = edges[turn as usize % edges.len()](random);
    draft.sources[place] = DraftSource { number: draft.sources[place].number, ..edge };
    draft
}

fn odd(random: &mut Random, most: u64) -> u64 {
    2 * random.below(most.div_ceil(2)) + 1
}

/// Fuel of an exact half of a gram in one line or in two, or a millionth of its content less: Q A is an odd multiple
/// of 31,250.
fn half_of_co2(random: &mut Random) -> DraftSource {
    half_in_two(random, 1, 15_625, 31, |content, quantity| line(1, 1, 3, content, 10_000, quantity))
}

/// Methane likewise: Q A is an odd multiple of 500.
fn half_of_ch4(random: &mut Random) -> DraftSource {
    half_in_two(random, 2, 250, 3_999, |content, quantity| line(2, 1, 0, content, 10_000, quantity))
}

fn half_in_two(random: &mut Random, method: u8, step: u32, most: u64, part: fn(u32, u64) -> Line) -> DraftSource {
    let content = step * odd(random, most) as u32;
    let quantity = odd(random, 999_999);
    let lines = [part(content, quantity), part(content - random.below(2) as u32, quantity)];
    source(1, method, 0, &lines)
}

/// Nitric acid of 2.5 or 7.5 g for each odd kilogram, or 0.5 g for each odd tonne, whole or in two lines.
fn half_of_n2o(random: &mut Random) -> DraftSource {
    let parameter = random.pick(&[2, 4, 6]);
    let step = if parameter == 6 { 1_000 } else { 1 };
    let quantity = step * odd(random, 9_999) - random.below(2);
    let part = random.below(quantity + 1);
    let lines = [part, quantity - part].map(|quantity| line(30, 1, 0, 0, 0, quantity));
    source(1, 6, parameter, &lines)
}

/// As much carbon out as in, or the least there is more or less.
fn zero_of_metals(random: &mut Random) -> DraftSource {
    let mut lines = vec![];
    for _ in 0..=random.below(4) {
        let (content, quantity) = (random.near_ends(0..=1_000_000) as u32, random.near_ends(0..=1_000_000));
        for kind in [random.pick(&[10, 12]), random.pick(&[11, 13])] {
            lines.push(line(kind, 1, 0, content, 10_000, quantity));
        }
    }
    let least = |kind| line(kind, 1, 0, 1, 10_000, 1);
    lines.extend(random.pick(&[None, Some(least(10)), Some(least(11))]));
    random.shuffle(&mut lines);
    source(1, 3, 0, &lines)
}

/// As much carbonate in the dust as was charged, or the least there is more or less.
fn zero_of_cement(random: &mut Random) -> DraftSource {
    let code = random.between(1..=4) as u16;
    let share = random.near_ends(0..=10_000) as u32;
    let (content, quantity) = (random.near_ends(0..=1_000_000) as u32, random.near_ends(0..=1_000_000));
    let charged = line(20, 1, code, content, share, quantity);
    let dust = line(21, 1, code, content, 10_000 - share, quantity);
    let mut lines = vec![charged, dust];
    lines.extend(random.pick(&[None, Some(line(20, 1, 4, 1, 1, 1)), Some(line(21, 1, 4, 1, 9_999, 1))]));
    random.shuffle(&mut lines);
    source(1, 5, 0, &lines)
}

/// A flare with methane and CO2 of an equivalent of 10^15, or a gram more or less.
fn limit(random: &mut Random) -> DraftSource {
    let [_, of_ch4, ..] = WARMING;
    let ch4 = random.near_ends(0..=MOST_EQUIVALENT as u64 / of_ch4);
    let co2 = MOST_EQUIVALENT as u64 - of_ch4 * ch4;
    let co2 = (co2 + random.below(3)).saturating_sub(1);
    source(1, 2, 0, &[methane_lines(ch4), carbon_lines(co2)].concat())
}

/// Flare lines whose Q A are together a number below 10^18: a line of the largest quantity, and one of the least
/// content.
fn lines_of_product(kind: u8, b: u32, product: u64) -> Vec<Line> {
    let large = line(kind, 2, 0, (product / MOST_QUANTITY) as u32, b, MOST_QUANTITY);
    vec![large, line(kind, 2, 0, 1, b, product % MOST_QUANTITY)]
}

fn methane_lines(grams: u64) -> Vec<Line> {
    lines_of_product(2, 10_000, grams * 1_000)
}

/// Carbon of which nothing stays unburned; the nearest product is less than two thousandths of a gram away.
fn carbon_lines(grams: u64) -> Vec<Line> {
    let product = (u128::from(grams) * 1_000_000 + 1_832) / 3_664;
    lines_of_product(1, 0, product as u64)
}
