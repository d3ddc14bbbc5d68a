//! A call with all that is lent to it, and what came of it.

use crate::answers::Answer;
use crate::calls;

/// The entry points, with the numbers that they have in a file of cases.
#[derive(Clone, Copy, Debug, PartialEq, Eq, PartialOrd, Ord)]
pub enum Entry {
    Calculate = 1,
    Combine = 2,
    Remove = 3,
    Check = 4,
    Text = 5,
    Name = 6,
    NameOfTwo = 7,
    Amounts = 8,
}

/// A call: its one or two inputs, its number, and a buffer of `room` bytes that all hold `fill`. What an entry point
/// does not take is empty or zero.
#[derive(Clone, Debug, PartialEq, Eq)]
pub struct Call {
    pub entry: Entry,
    pub first: Vec<u8>,
    pub second: Vec<u8>,
    pub number: u32,
    pub room: usize,
    pub fill: u8,
}

/// What a call answers (number, place and length; of a lookup the part), and what its buffer holds afterwards.
#[derive(Clone, Debug, PartialEq, Eq)]
pub struct Reply {
    pub answer: Vec<u64>,
    pub buffer: Vec<u8>,
}

/// The byte that buffers hold before a call, unless a call says otherwise.
pub const FILL: u8 = 0xAA;

impl Call {
    fn of(entry: Entry, first: &[u8], second: &[u8], number: u32, room: usize) -> Call {
        Call { entry, first: first.to_vec(), second: second.to_vec(), number, room, fill: FILL }
    }

    pub fn calculate(register: &[u8], room: usize) -> Call {
        Call::of(Entry::Calculate, register, &[], 0, room)
    }

    pub fn combine(first: &[u8], second: &[u8], room: usize) -> Call {
        Call::of(Entry::Combine, first, second, 0, room)
    }

    pub fn remove(report: &[u8], number: u32, room: usize) -> Call {
        Call::of(Entry::Remove, report, &[], number, room)
    }

    pub fn check(report: &[u8]) -> Call {
        Call::of(Entry::Check, report, &[], 0, 0)
    }

    pub fn text(report: &[u8], room: usize) -> Call {
        Call::of(Entry::Text, report, &[], 0, room)
    }

    pub fn name(register: &[u8], number: u32) -> Call {
        Call::of(Entry::Name, register, &[], number, 0)
    }

    pub fn name_of_two(plant: &[u8], contractor: &[u8], number: u32) -> Call {
        Call::of(Entry::NameOfTwo, plant, contractor, number, 0)
    }

    pub fn amounts(cards: &[u8], room: usize) -> Call {
        Call::of(Entry::Amounts, cards, &[], 0, room)
    }

    pub fn filled_with(mut self, fill: u8) -> Call {
        self.fill = fill;
        self
    }

    /// What the reference makes of the call.
    pub fn reply(&self) -> Reply {
        self.reply_over(vec![self.fill; self.room])
    }

    /// What it makes of the call where another buffer is lent.
    pub fn reply_over(&self, mut buffer: Vec<u8>) -> Reply {
        let (first, second) = (&self.first, &self.second);
        let answer = match self.entry {
            Entry::Calculate => numbers(calls::calculate(first, &mut buffer)),
            Entry::Combine => numbers(calls::combine(first, second, &mut buffer)),
            Entry::Remove => numbers(calls::remove(first, self.number, &mut buffer)),
            Entry::Check => numbers(calls::check(first)),
            Entry::Text => numbers(calls::text(first, &mut buffer)),
            Entry::Name => {
                let (offset, length) = calls::name(first, self.number);
                vec![offset, length]
            }
            Entry::NameOfTwo => {
                let (which, offset, length) = calls::name_of_two(first, second, self.number);
                vec![u64::from(which), offset, length]
            }
            Entry::Amounts => numbers(calls::amounts(first, &mut buffer)),
        };
        Reply { answer, buffer }
    }
}

fn numbers(answer: Answer) -> Vec<u64> {
    vec![u64::from(answer.number), answer.place, answer.length]
}
