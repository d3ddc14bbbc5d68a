//! The calls, each with its tests in the order that its document says, and what the report program and the amounts
//! program write.

use crate::answers::{deliver, Answer, Refusal};
use crate::bytes::append;
use crate::cards::amounts_of;
use crate::layout::{AMOUNT_LENGTH, MOST_SOURCES};
use crate::masses::masses_of;
use crate::methods::row_of;
use crate::register::{Register, Source};
use crate::report::{Entry, Report};

/// "Calculation tests 1, 2 by field, 3 over all sources, 4 over all, 5 over all lines, then 6 and 7 source by source
/// in table order, then 8."
pub fn calculate(register: &[u8], buffer: &mut [u8]) -> Answer {
    let report = calculated(register);
    deliver(report.map(|report| report.bytes()), buffer)
}

/// "Combining: 9 for the first, 9 for the second, 10, 11, 12, 8."
pub fn combine(first: &[u8], second: &[u8], buffer: &mut [u8]) -> Answer {
    let report = combined(first, second);
    deliver(report.map(|report| report.bytes()), buffer)
}

/// "Removal: 9, 13, 8."
pub fn remove(report: &[u8], number: u32, buffer: &mut [u8]) -> Answer {
    let rest = removed(report, number);
    deliver(rest.map(|report| report.bytes()), buffer)
}

/// "The report check has only 9, place 1." Accepted, its length is that of the report judged.
pub fn check(report: &[u8]) -> Answer {
    match well_formed(report, 1) {
        Ok(_) => Answer::accepted(report.len()),
        Err(refusal) => Answer::refused(refusal),
    }
}

/// A report as text: 9, place 1, then 8.
pub fn text(report: &[u8], buffer: &mut [u8]) -> Answer {
    let report = well_formed(report, 1);
    deliver(report.map(|report| report.text()), buffer)
}

/// "The name found for a number is the part of the lent register where it stands": offset and length. "The answer is
/// the empty part at the front of the (first) register where 1 to 4 refuse any register given, where the number is
/// absent."
pub fn name(register: &[u8], number: u32) -> (u64, u64) {
    let found = Register::read(register).ok();
    found.and_then(|register| register.name_place(number)).unwrap_or((0, 0))
}

/// "Over two registers, the plant's and its contractor's, the name is a part of whichever register holds the number":
/// 1 or 2, offset and length. The answer is the empty part at the front of the first "where 1 to 4 refuse any
/// register given, where the number is absent, or where it stands in both registers".
pub fn name_of_two(plant: &[u8], contractor: &[u8], number: u32) -> (u32, u64, u64) {
    let (Ok(plant), Ok(contractor)) = (Register::read(plant), Register::read(contractor)) else {
        return (1, 0, 0);
    };
    match (plant.name_place(number), contractor.name_place(number)) {
        (Some((offset, length)), None) => (1, offset, length),
        (None, Some((offset, length))) => (2, offset, length),
        _ => (1, 0, 0),
    }
}

/// "amounts written in card order, 8 bytes each", after 14 and 15; "then 8".
pub fn amounts(cards: &[u8], buffer: &mut [u8]) -> Answer {
    let amounts = amounts_of(cards);
    deliver(amounts.map(|amounts| amounts_bytes(&amounts)), buffer)
}

/// "The report program reads a register on standard input": what it writes.
pub fn report_program(input: &[u8]) -> Vec<u8> {
    match calculated(input) {
        Ok(report) => report.text(),
        Err(refusal) => refused_line(refusal.number, refusal.place),
    }
}

/// What the amounts program writes of a file of cards: a line for each card in their order, its amount as a plain
/// decimal.
pub fn amounts_program(input: &[u8]) -> Vec<u8> {
    match amounts_of(input) {
        Ok(amounts) => amounts.iter().map(|amount| format!("{amount}\n")).collect::<String>().into_bytes(),
        Err(refusal) => refused_line(refusal.number, refusal.place),
    }
}

/// "A refusal is the line `refused`, number, place."
pub fn refused_line(number: u32, place: u64) -> Vec<u8> {
    format!("refused {number} {place}\n").into_bytes()
}

fn calculated(register: &[u8]) -> Result<Report, Refusal> {
    let register = Register::read(register)?;
    test_lines(&register)?;
    let entries = register.sources.iter().enumerate().map(|(index, source)| entry_of(&register, index, source));
    let entries: Result<Vec<Entry>, Refusal> = entries.collect();
    Ok(Report::of(register.year, entries?))
}

/// 5: "a line breaks its ranges or is wrong for its method", place "first such line's index".
fn test_lines(register: &Register) -> Result<(), Refusal> {
    for source in &register.sources {
        for (index, line) in register.lines_of(source).iter().enumerate() {
            if row_of(source.method, source.parameter, line).is_none() {
                let place = usize::from(source.first_line) + index;
                return Err(Refusal::new(5, place as u64));
            }
        }
    }
    Ok(())
}

/// 6: "CO2 sum below zero"; 7: "equivalent above 10^15"; place "source index".
fn entry_of(register: &Register, index: usize, source: &Source) -> Result<Entry, Refusal> {
    let masses = masses_of(source.method, source.parameter, register.lines_of(source))
        .map_err(|unfit| Refusal::new(unfit.refusal_number(), index as u64))?;
    Ok(Entry { number: source.number, method: source.method, masses })
}

/// 9: "a report is not well-formed", place "1 or 2, which one; 1 if only one is lent".
fn well_formed(report: &[u8], which: u64) -> Result<Report, Refusal> {
    Report::read(report).ok_or(Refusal::new(9, which))
}

/// "Combining writes the well-formed report of all entries of both."
fn combined(first: &[u8], second: &[u8]) -> Result<Report, Refusal> {
    let first = well_formed(first, 1)?;
    let second = well_formed(second, 2)?;
    // 10: "years differ", place 0
    if first.year != second.year {
        return Err(Refusal::new(10, 0));
    }
    // 11: "a number stands in both reports", place "the smallest such": the first report's numbers ascend
    for entry in &first.entries {
        if second.entries.iter().any(|e| e.number == entry.number) {
            return Err(Refusal::new(11, u64::from(entry.number)));
        }
    }
    // 12: "combined count above 512", place "that count"
    let entries = [first.entries, second.entries].concat();
    if entries.len() > MOST_SOURCES {
        return Err(Refusal::new(12, entries.len() as u64));
    }
    Ok(Report::of(first.year, entries))
}

/// "Removal writes the report without that entry." 13: "number to remove is absent", place "the number".
fn removed(report: &[u8], number: u32) -> Result<Report, Refusal> {
    let mut report = well_formed(report, 1)?;
    let index = report.entries.iter().position(|e| e.number == number);
    let index = index.ok_or(Refusal::new(13, u64::from(number)))?;
    report.entries.remove(index);
    Ok(report)
}

fn amounts_bytes(amounts: &[u64]) -> Vec<u8> {
    let mut bytes = vec![];
    for &amount in amounts {
        append(&mut bytes, AMOUNT_LENGTH, amount);
    }
    bytes
}
