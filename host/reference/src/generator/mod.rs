//! Calls made from a seed and an index: the same seed and index give the same call.

pub mod cards;
mod dealing;
mod edges;
pub mod faults;
mod random;
pub mod registers;
pub mod reports;
mod spoil;

use std::collections::BTreeMap;

pub use dealing::{dealing, Dealing};
pub use random::Random;

use crate::call::{Call, Entry};
use crate::draft::Draft;
use faults::{spoilt, FAULTS};

/// Families of calls. Each is given what makes it random, and how often it had its turn, to go through its lists in
/// order.
const FAMILIES: [fn(&mut Random, u64) -> Call; 13] = [
    |random, _| calculation(random, |random| registers::valid(random).bytes()),
    |random, turn| calculation(random, |random| edges::register(random, turn).bytes()),
    |random, turn| calculation(random, |random| with_fault(random, turn)),
    |random, turn| calculation(random, |random| with_two_faults(random, turn)),
    |random, _| calculation(random, bytes_without_plan),
    check,
    combination,
    removal,
    text,
    name,
    name_of_two,
    combination_of_spoilt,
    amounts,
];

pub fn call(seed: u64, index: u64) -> Call {
    let mut random = Random::of(seed, index);
    let families = FAMILIES.len() as u64;
    let fill = random.pick(&[0x00, 0xAA, 0xFF]);
    FAMILIES[(index % families) as usize](&mut random, index / families).filled_with(fill)
}

/// How many of the first `count` calls of a seed were answered with each number; lookups apart, by whether they found
/// a name.
pub fn counts(seed: u64, count: u64) -> BTreeMap<String, u64> {
    let mut counts = BTreeMap::new();
    for index in 0..count {
        let call = call(seed, index);
        *counts.entry(kind_of_answer(call.entry, &call.reply().answer)).or_insert(0) += 1;
    }
    counts
}

/// An answer's number; of a lookup whether it found a name.
pub fn kind_of_answer(entry: Entry, answer: &[u64]) -> String {
    match entry {
        Entry::Name | Entry::NameOfTwo if answer.ends_with(&[0]) => "no name".to_string(),
        Entry::Name | Entry::NameOfTwo => "a name".to_string(),
        _ => format!("{:>2}", answer[0]),
    }
}

/// Gives a call just the room that it needs, or more, or less.
fn with_room(random: &mut Random, call: impl Fn(usize) -> Call) -> Call {
    let needed = match call(0).reply().answer[..] {
        [8, needed, _] => needed as usize,
        _ => random.index(200),
    };
    let room = match random.below(8) {
        0 => needed.saturating_sub(1),
        1 => random.index(needed + 1),
        2 => needed + 1,
        3 => needed + random.index(100),
        _ => needed,
    };
    call(room)
}

fn calculation(random: &mut Random, register: impl Fn(&mut Random) -> Vec<u8>) -> Call {
    let register = register(random);
    with_room(random, |room| Call::calculate(&register, room))
}

fn with_fault(random: &mut Random, turn: u64) -> Vec<u8> {
    let fault = &FAULTS[turn as usize % FAULTS.len()];
    let draft = registers::valid_of_some(random);
    spoilt(draft, &[fault], random)
}

fn with_two_faults(random: &mut Random, turn: u64) -> Vec<u8> {
    let turn = turn as usize;
    let (first, second) = (turn % FAULTS.len(), turn / FAULTS.len() % FAULTS.len());
    let draft = registers::valid_of_some(random);
    spoilt(draft, &[&FAULTS[first], &FAULTS[second]], random)
}

fn bytes_without_plan(random: &mut Random) -> Vec<u8> {
    if random.one_in(4) {
        return random.bytes_below(200);
    }
    let draft = registers::valid_of_some(random);
    spoil::at_random(draft.bytes(), random)
}

/// A report: well-formed, spoilt by one fault or by two, or without a plan.
fn a_report(random: &mut Random, turn: u64) -> Vec<u8> {
    let turn = turn as usize;
    let faults = reports::FAULTS.len();
    match random.below(4) {
        0 => reports::valid(random).bytes(),
        1 => reports::spoilt(random, &[turn % faults]),
        2 => reports::spoilt(random, &[turn % faults, turn / faults % faults]),
        _ => {
            let bytes = reports::spoilt(random, &[]);
            spoil::at_random(bytes, random)
        }
    }
}

fn check(random: &mut Random, turn: u64) -> Call {
    Call::check(&a_report(random, turn))
}

fn text(random: &mut Random, turn: u64) -> Call {
    let report = if random.one_in(4) { a_report(random, turn) } else { reports::valid(random).bytes() };
    with_room(random, |room| Call::text(&report, room))
}

fn combination(random: &mut Random, turn: u64) -> Call {
    let [first, second] = reports::pair(random, turn).map(|report| report.bytes());
    with_room(random, |room| Call::combine(&first, &second, room))
}

fn combination_of_spoilt(random: &mut Random, turn: u64) -> Call {
    let (first, second) = (a_report(random, turn), a_report(random, turn + 1));
    with_room(random, |room| Call::combine(&first, &second, room))
}

/// Removes the first, the last or another entry, an absent number, or 0.
fn removal(random: &mut Random, turn: u64) -> Call {
    if random.one_in(4) {
        let report = a_report(random, turn);
        let number = random.below(8) as u32;
        return with_room(random, |room| Call::remove(&report, number, room));
    }
    let report = reports::valid(random);
    let numbers: Vec<u32> = report.entries.iter().map(|entry| entry.number).collect();
    let number = a_number(random, &numbers);
    let bytes = report.bytes();
    with_room(random, |room| Call::remove(&bytes, number, room))
}

/// A number of a list, often its first or last; or one next to it, 0 or any.
fn a_number(random: &mut Random, numbers: &[u32]) -> u32 {
    if numbers.is_empty() || random.one_in(8) {
        return random.pick(&[0, 1, u32::MAX]);
    }
    let number = numbers[random.near_ends(0..=numbers.len() as u64 - 1) as usize];
    match random.below(8) {
        0 => number.wrapping_add(1),
        1 => number ^ 1 << random.below(32),
        _ => number,
    }
}

fn numbers_of(draft: &Draft) -> Vec<u32> {
    draft.sources.iter().map(|source| source.number).collect()
}

fn name(random: &mut Random, turn: u64) -> Call {
    let draft = registers::valid_of_some(random);
    let number = a_number(random, &numbers_of(&draft));
    let register = if random.one_in(2) { draft.bytes() } else { with_a_fault_of(draft, random, turn) };
    Call::name(&register, number)
}

fn with_a_fault_of(draft: Draft, random: &mut Random, turn: u64) -> Vec<u8> {
    spoilt(draft, &[&FAULTS[turn as usize % FAULTS.len()]], random)
}

fn name_of_two(random: &mut Random, turn: u64) -> Call {
    let (plant, mut contractor) = (registers::valid_of_some(random), registers::valid_of_some(random));
    if random.one_in(4) {
        contractor.sources[0].number = plant.sources[0].number;
    }
    let both = [numbers_of(&plant), numbers_of(&contractor)].concat();
    let number = a_number(random, &both);
    let mut registers = [plant.bytes(), contractor.bytes()];
    if random.one_in(4) {
        let spoilt = random.index(2);
        registers[spoilt] = with_a_fault_of([plant, contractor][spoilt].clone(), random, turn);
    }
    Call::name_of_two(&registers[0], &registers[1], number)
}

/// Stock cards: accepted, spoilt by one fault or by two, of edges alone, or without a plan.
fn some_cards(random: &mut Random, turn: u64) -> Vec<u8> {
    let turn = turn as usize;
    let faults = cards::FAULTS.len();
    match random.below(8) {
        0..=2 => cards::valid(random),
        3 => cards::spoilt(random, &[turn % faults]),
        4 => cards::spoilt(random, &[turn % faults, turn / faults % faults]),
        5 | 6 => cards::of_edges(random),
        _ => {
            let bytes = cards::spoilt(random, &[]);
            spoil::at_random(bytes, random)
        }
    }
}

fn amounts(random: &mut Random, turn: u64) -> Call {
    let cards = some_cards(random, turn);
    with_room(random, |room| Call::amounts(&cards, room))
}
