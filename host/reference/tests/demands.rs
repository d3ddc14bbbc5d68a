//! The third demand, on generated dealings: combined in any order and grouping, the parts give the whole register's
//! report.

use reference::calls::{calculate, combine, remove};
use reference::generator::{dealing, registers, Random};
use reference::layout::MOST_REPORT_LENGTH;
use reference::report::Report;

/// Lends a buffer with room for any report, and gives what was written.
fn written(call: impl Fn(&mut [u8]) -> reference::answers::Answer) -> Vec<u8> {
    let mut buffer = vec![0; MOST_REPORT_LENGTH];
    let answer = call(&mut buffer);
    assert_eq!(answer.number, 0);
    buffer.truncate(answer.length as usize);
    buffer
}

fn calculated(register: &[u8]) -> Vec<u8> {
    written(|buffer| calculate(register, buffer))
}

fn combined(first: &[u8], second: &[u8]) -> Vec<u8> {
    written(|buffer| combine(first, second, buffer))
}

#[test]
fn parts_combine_to_the_whole() {
    for index in 0..150 {
        let dealing = dealing(11, index);
        let reports = dealing.parts.iter().map(|part| calculated(part)).collect();
        assert_eq!(dealing.combined(reports, combined), calculated(&dealing.whole), "dealing {index}");
    }
}

#[test]
fn the_empty_report_changes_nothing() {
    for index in 0..50 {
        let draft = registers::valid(&mut Random::of(12, index));
        let report = calculated(&draft.bytes());
        let empty = Report::of(draft.year, vec![]).bytes();
        assert_eq!(combined(&report, &empty), report);
        assert_eq!(combined(&empty, &report), report);
    }
}

#[test]
fn a_source_removed_and_combined_again_gives_the_report() {
    for index in 0..50 {
        let draft = registers::valid_of_some(&mut Random::of(13, index));
        let report = calculated(&draft.bytes());
        for source in &draft.sources {
            let rest = written(|buffer| remove(&report, source.number, buffer));
            let own = calculated(&reference::draft::register(draft.year, vec![source.clone()]).bytes());
            assert_eq!(combined(&rest, &own), report);
            assert_eq!(combined(&own, &rest), report);
        }
    }
}
