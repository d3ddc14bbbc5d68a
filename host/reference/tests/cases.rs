//! The reference gives each chosen call the answer stated for it, and the files made of them hold together.

use std::collections::BTreeSet;
use std::path::Path;

use reference::answers::LAST_REFUSAL;
use reference::bytes::number_at;
use reference::cases::{calls, chosen, generated, listing, output};
use reference::layout::MOST_REGISTER_LENGTH;

#[test]
fn answers_are_those_stated() {
    for group in chosen() {
        for case in group.cases {
            let reply = case.call.reply();
            assert_eq!(reply.answer, case.answer, "{}: {}", group.purpose, case.name);
        }
    }
}

/// "A refusal .. writes nothing", and "bytes after that length stay".
#[test]
fn bytes_behind_the_length_stay() {
    for case in chosen().into_iter().flat_map(|group| group.cases) {
        let reply = case.call.reply();
        let written = if reply.buffer.is_empty() { 0 } else { case.answer[2] };
        let behind = &reply.buffer[written as usize..];
        assert!(behind.iter().all(|&byte| byte == case.call.fill), "{}", case.name);
    }
}

#[test]
fn names_fit_and_differ_in_their_group() {
    for group in chosen() {
        let names: BTreeSet<&str> = group.cases.iter().map(|case| case.name.as_str()).collect();
        assert_eq!(names.len(), group.cases.len(), "{}", group.purpose);
        for name in names {
            assert!(name.len() <= 44 && name.is_ascii() && !name.is_empty(), "{name}");
        }
    }
}

#[test]
fn each_refusal_number_has_a_case() {
    let cases = chosen().into_iter().flat_map(|group| group.cases);
    let numbers: BTreeSet<u64> = cases.filter(|c| c.answer.len() == 3).map(|c| c.answer[0]).collect();
    assert!((0..=LAST_REFUSAL).all(|number| numbers.contains(&number.into())));
}

/// The length of a record's header, as `cases::file` describes it.
const RECORD_HEADER: usize = 64;

/// Reads the file as a program would, and compares every record with its call.
#[test]
fn file_holds_every_call() {
    let file = calls(&chosen());
    let mut at = 0;
    for case in chosen().into_iter().flat_map(|group| group.cases) {
        let record = &file[at..];
        let (first, second) = (number_at(record, 12, 4) as usize, number_at(record, 16, 4) as usize);
        assert_eq!(record[0], case.call.entry as u8);
        assert_eq!(record[1], case.call.fill);
        assert_eq!(number_at(record, 4, 4), u64::from(case.call.number));
        assert_eq!(number_at(record, 8, 4), case.call.room as u64);
        let inputs = &record[RECORD_HEADER..];
        assert_eq!(&inputs[..first], case.call.first);
        assert_eq!(&inputs[first..first + second], case.call.second);
        assert!(first.max(second).max(case.call.room) <= MOST_REGISTER_LENGTH + 1);
        at += RECORD_HEADER + first + second;
    }
    assert_eq!(at, file.len());
}

#[test]
fn files_are_the_same_each_time_and_small() {
    let (once, again) = (chosen(), chosen());
    assert!(calls(&once) == calls(&again) && output(&once) == output(&again) && listing(&once) == listing(&again));
    assert!(output(&once).len() < 1_000_000);
    assert!(calls(&generated(5, 50)) == calls(&generated(5, 50)));
}

/// The program `test_calls` reads these calls, and has to write what the reference makes of them.
#[test]
fn stored_files_are_those_made() {
    let crate_folder = Path::new("../../crates/test_calls");
    let stored = |name| std::fs::read(crate_folder.join(name)).unwrap();
    assert!(stored("data/calls") == calls(&chosen()));
    assert!(stored("stdout") == output(&chosen()));
    assert!(stored("calls.txt") == listing(&chosen()).into_bytes());
}
