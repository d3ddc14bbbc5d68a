//! A call made by a side and by the reference: answer, every byte of the buffer, guards and inputs are compared.

use std::collections::BTreeMap;

use reference::call::{Call, Entry};
use reference::generator;

use crate::lent::{Around, Lent};
use crate::sides::Side;

/// Compares the generated calls of a seed, and counts the answers by their number.
pub fn generated(side: Side, seed: u64, count: u64, around: Around) -> Result<BTreeMap<String, u64>, String> {
    let mut counts = BTreeMap::new();
    for index in 0..count {
        let call = generator::call(seed, index);
        let answer = compared(side, &call, around).map_err(|how| format!("seed {seed}, call {index}: {how}"))?;
        *counts.entry(generator::kind_of_answer(call.entry, &answer)).or_insert(0) += 1;
    }
    Ok(counts)
}

/// The answer to a call in the room that it states, once it has been compared in that room and in others.
pub fn compared(side: Side, call: &Call, around: Around) -> Result<Vec<u64>, String> {
    for room in other_rooms(call) {
        compared_in(side, call, room, around)?;
    }
    compared_in(side, call, call.room, around)
}

/// Of a call that writes: none, a byte too few, just enough, and more.
fn other_rooms(call: &Call) -> Vec<usize> {
    match (call.entry, &call.reply_over(vec![]).answer[..]) {
        (Entry::Check | Entry::Name | Entry::NameOfTwo, _) => vec![],
        (_, &[8, needed, _]) => [0, needed - 1, needed, needed + 37].map(|room| room as usize).to_vec(),
        _ => vec![0],
    }
}

fn compared_in(side: Side, call: &Call, room: usize, around: Around) -> Result<Vec<u64>, String> {
    let before = pattern(call.fill, room);
    let expected = call.reply_over(before.clone());
    let (first, second) = (Lent::new(&call.first, around), Lent::new(&call.second, around));
    let mut buffer = Lent::new(&before, around);
    let answer = side(call.entry, first.bytes(), second.bytes(), call.number, buffer.bytes_mut());
    let differs = |what| format!("{what} in {room} bytes: {answer:?}, expected {:?}\n{}", expected.answer, shown(call));
    if answer[..expected.answer.len()] != expected.answer {
        return Err(differs("another answer"));
    }
    if buffer.bytes() != expected.buffer {
        return Err(differs("other bytes in the buffer"));
    }
    if first.bytes() != call.first || second.bytes() != call.second {
        return Err(differs("an input was changed"));
    }
    if ![first, second, buffer].iter().all(Lent::guards_stand) {
        return Err(differs("bytes beside what was lent were changed"));
    }
    Ok(expected.answer)
}

/// What a buffer holds before a call: no two bytes near each other are equal, so that none may move unseen.
fn pattern(fill: u8, room: usize) -> Vec<u8> {
    (0..room).map(|place| fill.wrapping_add((place % 251) as u8)).collect()
}

/// The call's input, to be made again.
fn shown(call: &Call) -> String {
    let digits = |bytes: &[u8]| bytes.iter().map(|byte| format!("{byte:02x}")).collect::<String>();
    let (first, second) = (digits(&call.first), digits(&call.second));
    format!("{:?}, number {}, first {first}, second {second}", call.entry, call.number)
}
