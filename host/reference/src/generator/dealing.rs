//! The third demand: a register's sources dealt out among registers of its year, and reports combined in any grouping.

use super::random::Random;
use super::registers;
use crate::draft::{register, Draft};

/// An accepted register, the registers that its sources were dealt out among, and an order in which to combine their
/// reports.
pub struct Dealing {
    pub whole: Vec<u8>,
    pub parts: Vec<Vec<u8>>,
    /// The number of a source of the whole, and the register of that source alone; none where the whole has no source.
    pub alone: Option<(u32, Vec<u8>)>,
    /// Each pair takes two reports out of the list, the second counted after the first is gone, and puts their
    /// combination at its end.
    combinations: Vec<(usize, usize)>,
}

pub fn dealing(seed: u64, index: u64) -> Dealing {
    let mut random = Random::of(seed, index);
    let whole = registers::valid(&mut random);
    let parts = dealt_out(&whole, &mut random);
    let combinations = (2..=parts.len()).rev().map(|count| (random.index(count), random.index(count - 1)));
    Dealing {
        whole: whole.bytes(),
        combinations: combinations.collect(),
        parts: parts.iter().map(Draft::bytes).collect(),
        alone: alone(&whole, &mut random),
    }
}

fn alone(whole: &Draft, random: &mut Random) -> Option<(u32, Vec<u8>)> {
    let source = whole.sources.get(random.index(whole.sources.len().max(1)))?;
    Some((source.number, register(whole.year, vec![source.clone()]).bytes()))
}

fn dealt_out(whole: &Draft, random: &mut Random) -> Vec<Draft> {
    let mut sources = whole.sources.clone();
    random.shuffle(&mut sources);
    let mut parts = vec![register(whole.year, vec![]); 1 + random.index(6)];
    for source in sources {
        let part = random.index(parts.len());
        parts[part].sources.push(source);
    }
    parts
}

impl Dealing {
    /// Combines the parts' reports in the dealing's order.
    pub fn combined(&self, mut reports: Vec<Vec<u8>>, combine: impl Fn(&[u8], &[u8]) -> Vec<u8>) -> Vec<u8> {
        for &(first, second) in &self.combinations {
            let first = reports.remove(first);
            let second = reports.remove(second);
            reports.push(combine(&first, &second));
        }
        reports.remove(0)
    }
}
