//! The files in `tests/` are those that the command writes, and each that is to be refused is refused so.

use std::path::PathBuf;

use reference::calls::{amounts_program, report_program};
use reference::samples::all;

#[test]
fn files_are_those_written() {
    for (name, bytes) in all() {
        let path: PathBuf = [env!("CARGO_MANIFEST_DIR"), "../../tests", name].iter().collect();
        assert_eq!(std::fs::read(&path).expect("the sample is there"), bytes, "{name}");
    }
}

#[test]
fn a_register_is_refused_as_its_name_says() {
    for (name, bytes) in all() {
        if let Some(number) = name.strip_prefix("refused-").and_then(|rest| rest.strip_suffix(".register")) {
            let said = report_program(&bytes);
            assert!(said.starts_with(format!("refused {number} ").as_bytes()), "{name}");
        }
    }
}

#[test]
fn cards_are_answered_as_their_name_says() {
    let said = |name| {
        let (_, bytes) = all().into_iter().find(|(sample, _)| *sample == name).expect("a sample of this name");
        String::from_utf8(amounts_program(&bytes)).expect("digits and words")
    };
    assert_eq!(said("no.cards"), "");
    assert_eq!(said("refused-14.cards"), "refused 14 2\n");
    assert_eq!(said("refused-14-length.cards"), "refused 14 0\n");
    assert_eq!(said("refused-15.cards"), "refused 15 4\n");
}
