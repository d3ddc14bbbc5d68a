//! Bytes lent to a call: alone in their piece of the heap, or between guard bytes.

/// With guards a write beside the bytes shows in them; without, valgrind sees a read beside the bytes too.
#[derive(Clone, Copy, Debug, PartialEq, Eq)]
pub enum Around {
    Guards,
    Nothing,
}

const GUARD: [u8; 48] = [0xC3; 48];

pub struct Lent {
    bytes: Box<[u8]>,
    guard: usize,
}

impl Lent {
    pub fn new(content: &[u8], around: Around) -> Lent {
        let guard = if around == Around::Guards { &GUARD[..] } else { &[] };
        Lent { bytes: [guard, content, guard].concat().into(), guard: guard.len() }
    }

    pub fn bytes(&self) -> &[u8] {
        &self.bytes[self.guard..self.bytes.len() - self.guard]
    }

    pub fn bytes_mut(&mut self) -> &mut [u8] {
        let end = self.bytes.len() - self.guard;
        &mut self.bytes[self.guard..end]
    }

    pub fn guards_stand(&self) -> bool {
        let end = self.bytes.len() - self.guard;
        [&self.bytes[..self.guard], &self.bytes[end..]].iter().all(|guard| **guard == GUARD[..self.guard])
    }
}
