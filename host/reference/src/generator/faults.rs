//! Ways to spoil a register, each breaking one rule of 1 to 7, so that alone it gives its number, and two give the
//! smaller.

use super::random::Random;
use super::spoil::{move_by_one, put};
use crate::draft::{line, source, Draft, DraftSource};
use crate::layout::{
    line_at, source_at, METHODS, MOST_LINES, MOST_NAME_BYTES, MOST_SOURCES, NAME_LENGTHS, REGISTER_LAYOUT, SOURCES_AT,
    YEARS,
};
use crate::methods::{most_a, row_of, MOST_QUANTITY, TABLE};
use crate::register::Line;

/// A fault: the refusal that it gives alone, and how it spoils.
pub struct Fault {
    pub refusal: u32,
    spoils: Spoils,
}

/// Some faults spoil what a plant states, others the bytes made of that.
enum Spoils {
    Draft(fn(&mut Draft, &mut Random)),
    Line(fn(&mut Line, Owner, &mut Random)),
    Bytes(fn(&mut Bytes, &mut Random)),
}

/// Method and parameter of the source that a line belongs to.
type Owner = (u8, u8);

/// A register's bytes, and how many sources and lines they had before they were spoilt.
struct Bytes {
    bytes: Vec<u8>,
    sources: usize,
    lines: usize,
}

impl Bytes {
    fn put(&mut self, place: usize, width: usize, number: u64) {
        put(&mut self.bytes, place, width, number);
    }

    fn move_by_one(&mut self, place: usize, width: usize, random: &mut Random) {
        move_by_one(&mut self.bytes, place, width, random);
    }

    /// The place of a field of some source entry.
    fn of_an_entry(&self, at: usize, random: &mut Random) -> usize {
        source_at(random.index(self.sources)) + at
    }
}

/// A register with the faults. What a plant states is spoilt before the bytes are, and cutting below a header's
/// length comes last.
pub fn spoilt(mut draft: Draft, faults: &[&Fault], random: &mut Random) -> Vec<u8> {
    let mut faults = faults.to_vec();
    faults.sort_by_key(|fault| std::cmp::Reverse(fault.refusal));
    for fault in &faults {
        match fault.spoils {
            Spoils::Draft(spoil) => spoil(&mut draft, random),
            Spoils::Line(spoil) => spoil_a_line(&mut draft, spoil, random),
            Spoils::Bytes(_) => {}
        }
    }
    let (sources, lines) = (draft.sources.len(), draft.lines().len());
    let mut bytes = Bytes { bytes: draft.bytes(), sources, lines };
    for fault in faults {
        if let Spoils::Bytes(spoil) = fault.spoils {
            spoil(&mut bytes, random);
        }
    }
    bytes.bytes
}

fn a_source<'a>(draft: &'a mut Draft, random: &mut Random) -> &'a mut DraftSource {
    let index = random.index(draft.sources.len());
    &mut draft.sources[index]
}

fn spoil_a_line(draft: &mut Draft, spoil: fn(&mut Line, Owner, &mut Random), random: &mut Random) {
    let source = a_source(draft, random);
    let index = random.index(source.lines.len());
    spoil(&mut source.lines[index], (source.method, source.parameter), random);
}

const fn of_bytes(refusal: u32, spoil: fn(&mut Bytes, &mut Random)) -> Fault {
    Fault { refusal, spoils: Spoils::Bytes(spoil) }
}

const fn of_draft(refusal: u32, spoil: fn(&mut Draft, &mut Random)) -> Fault {
    Fault { refusal, spoils: Spoils::Draft(spoil) }
}

const fn of_line(spoil: fn(&mut Line, Owner, &mut Random)) -> Fault {
    Fault { refusal: 5, spoils: Spoils::Line(spoil) }
}

pub static FAULTS: [Fault; 39] = [
    // too short
    of_bytes(1, |b, r| b.bytes.truncate(r.index(SOURCES_AT))),
    // tag, layout, year, counts, offsets, whole length
    of_bytes(2, |b, r| b.put(r.index(4), 1, u64::from(r.byte() | 0x80))),
    of_bytes(2, |b, r| b.put(4, 2, r.pick(&[0, REGISTER_LAYOUT + 1, REGISTER_LAYOUT + 256, 65_535]))),
    of_bytes(2, |b, r| b.put(6, 2, r.pick(&[0, YEARS.start() - 1, YEARS.end() + 1, 65_535]))),
    of_bytes(2, |b, r| b.put(8, 2, r.pick(&[MOST_SOURCES as u64 + 1, MOST_SOURCES as u64 + 2, 65_535]))),
    of_bytes(2, |b, r| b.move_by_one(8, 2, r)),
    of_bytes(2, |b, r| b.put(10, 2, r.pick(&[MOST_LINES as u64 + 1, MOST_LINES as u64 + 2, 65_535]))),
    of_bytes(2, |b, r| b.move_by_one(10, 2, r)),
    of_bytes(2, |b, r| b.put(12, 4, r.pick(&[MOST_NAME_BYTES as u64 + 1, 65_536, 0xFFFF_FFFF]))),
    of_bytes(2, |b, r| b.move_by_one(12, 4, r)),
    of_bytes(2, |b, r| b.put(16, 4, r.pick(&[0, SOURCES_AT as u64 - 1, SOURCES_AT as u64 + 1, 0xFFFF_FFFF]))),
    of_bytes(2, |b, r| b.move_by_one(20, 4, r)),
    of_bytes(2, |b, r| b.move_by_one(24, 4, r)),
    of_bytes(2, |b, r| b.move_by_one(28, 4, r)),
    // the bytes lent
    of_bytes(2, |b, r| b.bytes.truncate(SOURCES_AT + r.index(b.bytes.len().max(SOURCES_AT + 1) - SOURCES_AT))),
    of_bytes(2, |b, r| b.bytes.extend(vec![r.byte(); 1 + r.index(40)])),
    // a source entry
    of_bytes(3, |b, r| b.put(b.of_an_entry(0, r), 4, 0)),
    of_bytes(3, |b, r| b.put(b.of_an_entry(4, r), 1, r.pick(&[0, METHODS.end() + 1, 255]))),
    of_bytes(3, |b, r| b.put(b.of_an_entry(5, r), 1, r.pick(&[7, 255]))),
    of_bytes(3, |b, r| b.put(b.of_an_entry(6, r), 2, r.pick(&[0, MOST_LINES as u64 + 1, 65_535]))),
    of_bytes(3, |b, r| b.move_by_one(b.of_an_entry(6, r), 2, r)),
    of_bytes(3, |b, r| b.move_by_one(b.of_an_entry(8, r), 2, r)),
    of_bytes(3, |b, r| b.put(b.of_an_entry(10, r), 2, r.pick(&[0, NAME_LENGTHS.end() + 1, 65_535]))),
    of_bytes(3, |b, r| b.move_by_one(b.of_an_entry(10, r), 2, r)),
    of_bytes(3, |b, r| b.move_by_one(b.of_an_entry(12, r), 4, r)),
    of_bytes(3, |b, r| b.put(line_at(b.sources, b.lines) + r.index(2), 1, r.pick(&[0, 10, 31, 127]))),
    of_draft(3, |d, r| a_source(d, r).name.push(127)),
    // lines and name bytes left over
    of_draft(3, |d, _| d.lines_left_over.push(line(1, 1, 3, 0, 0, 0))),
    of_draft(3, |d, _| d.name_bytes_left_over.push(b'?')),
    // a number that stood earlier
    of_draft(4, repeat_a_number),
    // lines
    of_line(strange_kind),
    of_line(strange_unit),
    of_line(|l, _, r| l.code = r.pick(&[5, 256, 65_535])),
    of_line(|l, _, r| l.a = most_a(l.unit) + 1 + r.below(2) as u32 * 7),
    of_line(narrower_than_the_range),
    of_line(|l, _, r| l.b = r.pick(&[10_001, u32::MAX])),
    of_line(|l, _, r| l.quantity = r.pick(&[MOST_QUANTITY + 1, 1 << 40, u64::MAX])),
    // sums
    of_draft(6, |d, r| add_source(d, 3, line(11, 1, 0, 1, 10_000, 1), r)),
    of_draft(7, |d, r| add_source(d, 2, line(2, 2, 0, 4_000_001, 10_000, 10_000_000_000), r)),
];

fn repeat_a_number(draft: &mut Draft, random: &mut Random) {
    let later = 1 + random.index(draft.sources.len() - 1);
    let earlier = random.index(later);
    draft.sources[later].number = draft.sources[earlier].number;
}

/// A kind that the method has not.
fn strange_kind(line: &mut Line, (method, _): Owner, random: &mut Random) {
    let own: Vec<u8> = TABLE.iter().filter(|row| row.method == method).flat_map(|row| row.kinds).copied().collect();
    let kinds = [0, 1, 2, 3, 10, 11, 12, 13, 14, 20, 21, 22, 30, 31, 255];
    let strange: Vec<u8> = kinds.into_iter().filter(|kind| !own.contains(kind)).collect();
    line.kind = random.pick(&strange);
}

/// A unit that the kind has not.
fn strange_unit(line: &mut Line, (method, parameter): Owner, random: &mut Random) {
    let own = row_of(method, parameter, line).map_or(&[][..], |row| row.units);
    let strange: Vec<u8> = [0, 1, 2, 3, 4, 5, 255].into_iter().filter(|unit| !own.contains(unit)).collect();
    line.unit = if own.is_empty() { 0 } else { random.pick(&strange) };
}

/// A value in the general range where the kind has its own: B or A of acid, B of what has 10,000; else a code.
fn narrower_than_the_range(line: &mut Line, (method, parameter): Owner, random: &mut Random) {
    let Some(row) = row_of(method, parameter, line) else { return };
    if row.a.end() == row.a.start() {
        line.a = 1;
    } else if row.b.end() == row.b.start() {
        line.b = random.pick(&[0, 9_999]);
    } else {
        line.code = 5;
    }
}

fn add_source(draft: &mut Draft, method: u8, line: Line, random: &mut Random) {
    let is_free = |&number: &u32| draft.sources.iter().all(|source| source.number != number);
    let number = (1..).find(is_free).expect("so few sources leave numbers free");
    let place = random.index(draft.sources.len() + 1);
    draft.sources.insert(place, source(number, method, 0, &[line]));
}
