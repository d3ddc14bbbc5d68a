//! The rows of the table: which calls are made, and on what.

use std::io::Write;

use reference::call::Call;
use reference::cases::{self, Case, Group};
use reference::draft::register;
use reference::generator::{cards, registers, Random};
use reference::layout::{amounts_length, report_length, MOST_CARDS, MOST_SOURCES};

/// A call and how many sources it goes over, or cards. The inputs are a pool, so that no branch is learnt.
pub struct Row {
    pub name: &'static str,
    pub sources: usize,
    call: fn(&mut Random, usize) -> Call,
}

const SEED: u64 = 1;

pub const ROWS: [Row; 10] = [
    Row { name: "calculate 1", sources: 1, call: calculation },
    Row { name: "calculate 8", sources: 8, call: calculation },
    Row { name: "calculate 64", sources: 64, call: calculation },
    Row { name: "calculate 512", sources: MOST_SOURCES, call: calculation },
    Row { name: "combine 256 + 256", sources: MOST_SOURCES, call: combination },
    Row { name: "remove from 512", sources: MOST_SOURCES, call: removal },
    Row { name: "check 512", sources: MOST_SOURCES, call: |random, sources| Call::check(&report(random, sources)) },
    Row { name: "name, last of 512", sources: MOST_SOURCES, call: last_name },
    Row { name: "text of 512", sources: MOST_SOURCES, call: text },
    Row { name: "amounts of 1,024 cards", sources: MOST_CARDS, call: amounts },
];

impl Row {
    /// So many calls, the same in every run.
    pub fn pool(&self, count: usize) -> Vec<Call> {
        (0..count).map(|index| (self.call)(&mut Random::of(SEED, index as u64), self.sources)).collect()
    }

    pub fn named(name: &str) -> Option<&'static Row> {
        ROWS.iter().find(|row| row.name == name)
    }
}

/// Calls of a row as a file of cases, for a program that is not this one.
pub fn write_file(row: &str, count: usize) {
    let pool = Row::named(row).expect("a row").pool(count);
    let case = |call: Call| Case { name: row.to_string(), answer: call.reply().answer, call };
    let group = Group { purpose: "A row of the benchmark.", cases: pool.into_iter().map(case).collect() };
    std::io::stdout().write_all(&cases::calls(&[group])).expect("standard output takes the file");
}

fn calculation(random: &mut Random, sources: usize) -> Call {
    let register = registers::valid_of(random, sources).bytes();
    Call::calculate(&register, report_length(sources))
}

fn report(random: &mut Random, sources: usize) -> Vec<u8> {
    calculation(random, sources).reply().buffer
}

/// The sources of a register dealt out to two, by their order in the table, which is not that of their numbers.
fn combination(random: &mut Random, sources: usize) -> Call {
    let mut whole = registers::valid_of(random, sources);
    let second = whole.sources.split_off(sources / 2);
    let [first, second] = [whole.sources, second].map(|sources| {
        let room = report_length(sources.len());
        Call::calculate(&register(whole.year, sources).bytes(), room).reply().buffer
    });
    Call::combine(&first, &second, report_length(sources))
}

fn removal(random: &mut Random, sources: usize) -> Call {
    let draft = registers::valid_of(random, sources);
    let number = draft.sources[random.index(sources)].number;
    let report = Call::calculate(&draft.bytes(), report_length(sources)).reply().buffer;
    Call::remove(&report, number, report_length(sources - 1))
}

fn last_name(random: &mut Random, sources: usize) -> Call {
    let draft = registers::valid_of(random, sources);
    Call::name(&draft.bytes(), draft.sources[sources - 1].number)
}

fn text(random: &mut Random, sources: usize) -> Call {
    let report = report(random, sources);
    let needed = Call::text(&report, 0).reply().answer[1];
    Call::text(&report, needed as usize)
}

fn amounts(random: &mut Random, count: usize) -> Call {
    Call::amounts(&cards::valid_of(random, count), amounts_length(count))
}
