//! The calls once more in safe Rust, written for speed, for the proved ones to be measured beside.
//!
//! No heap, wide integers, one pass over the lines and one over the cards, `sort_unstable` for the order, a hash of its
//! own for repeated numbers where no order is wanted. It is compared with the reference as the proved library is.

#![forbid(unsafe_code)]

mod calculation;
mod cards;
mod combination;
mod fields;
mod layout;
mod lookup;
mod register;
mod removal;
mod report;
mod text;

use kopristen::raw::{Answer, Found, Part};

/// A refusal's number and place.
type Refusal = (u32, u64);

fn answer(result: Result<usize, Refusal>) -> Answer {
    match result {
        Ok(length) => Answer { number: 0, place: 0, length: length as u64 },
        Err((number, place)) => Answer { number, place, length: 0 },
    }
}

/// The front of a buffer, where it has the room: 8 is the last test of each call that writes.
fn room(buffer: &mut [u8], needed: usize) -> Result<&mut [u8], Refusal> {
    buffer.get_mut(..needed).ok_or((8, needed as u64))
}

#[inline(never)]
pub fn calculate(register: &[u8], report: &mut [u8]) -> Answer {
    answer(calculation::calculated(register, report))
}

#[inline(never)]
pub fn combine(first: &[u8], second: &[u8], report: &mut [u8]) -> Answer {
    answer(combination::combined(first, second, report))
}

#[inline(never)]
pub fn remove(report: &[u8], number: u32, result: &mut [u8]) -> Answer {
    answer(removal::removed(report, number, result))
}

#[inline(never)]
pub fn check(report: &[u8]) -> Answer {
    answer(report::well_formed(report, 1).map(|_| report.len()))
}

#[inline(never)]
pub fn text(report: &[u8], text: &mut [u8]) -> Answer {
    answer(text::written(report, text))
}

#[inline(never)]
pub fn name(register: &[u8], number: u32) -> Part {
    let (offset, length) = lookup::accepted(register).and_then(|table| table.name(number)).unwrap_or((0, 0));
    Part { offset, length }
}

#[inline(never)]
pub fn name_of_two(plant: &[u8], contractor: &[u8], number: u32) -> Found {
    let (which, (offset, length)) = lookup::of_two(plant, contractor, number).unwrap_or((1, (0, 0)));
    Found { which, offset, length }
}

#[inline(never)]
pub fn amounts(cards: &[u8], amounts: &mut [u8]) -> Answer {
    answer(cards::worked_out(cards, amounts))
}
