//! Calls with a name and an answer, to be written to a file (`file`) that tests a program over the proved entry points.
//!
//! The answers of the chosen calls are stated by hand, so these test the reference itself.

mod balances;
mod cards;
mod check;
mod combination;
mod file;
mod header;
mod lines;
mod names;
mod numbers;
mod removal;
mod sources;
mod sums;
mod texts;

pub use file::{calls, listing, output};

use crate::call::Call;
use crate::generator;
use crate::layout::report_length;

pub struct Case {
    pub name: String,
    pub call: Call,
    pub answer: Vec<u64>,
}

/// Cases that belong together, and what they are for.
pub struct Group {
    pub purpose: &'static str,
    pub cases: Vec<Case>,
}

/// The chosen calls.
pub fn chosen() -> Vec<Group> {
    let parts = [
        sums::groups(),
        header::groups(),
        sources::groups(),
        numbers::groups(),
        lines::groups(),
        balances::groups(),
        check::groups(),
        combination::groups(),
        removal::groups(),
        texts::groups(),
        names::groups(),
        cards::groups(),
    ];
    parts.into_iter().flatten().collect()
}

/// Calls made from a seed, with the reference's own answers.
pub fn generated(seed: u64, count: u64) -> Vec<Group> {
    let made = |index| {
        let call = generator::call(seed, index);
        let answer = call.reply().answer;
        Case { name: format!("call {index}"), call, answer }
    };
    vec![group("Generated calls.", (0..count).map(made).collect())]
}

fn group(purpose: &'static str, cases: Vec<Case>) -> Group {
    Group { purpose, cases }
}

fn case(name: impl Into<String>, call: Call, answer: &[u64]) -> Case {
    Case { name: name.into(), call, answer: answer.to_vec() }
}

fn accepted(name: impl Into<String>, call: Call, length: u64) -> Case {
    case(name, call, &[0, 0, length])
}

fn refused(name: impl Into<String>, call: Call, number: u64, place: u64) -> Case {
    case(name, call, &[number, place, 0])
}

/// A buffer for calls that are refused: short enough to be read, and too short for any report.
const A_LITTLE_ROOM: usize = 8;

fn calculation_refused(name: impl Into<String>, register: &[u8], number: u64, place: u64) -> Case {
    let call = Call::calculate(register, A_LITTLE_ROOM);
    refused(name, call, number, place)
}

/// A calculation with just the room that its report takes.
fn calculation_accepted(name: impl Into<String>, register: &[u8], sources: usize) -> Case {
    let length = report_length(sources);
    let call = Call::calculate(register, length);
    accepted(name, call, length as u64)
}
