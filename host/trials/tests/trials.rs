//! The trials themselves: what differs is found, the Rust side is right, and a small stack is enough.

use reference::call::{Call, Entry};
use reference::generator::{cards, registers, Random};
use reference::layout::{
    report_length, MOST_AMOUNTS_LENGTH, MOST_CARDS, MOST_REPORT_LENGTH, MOST_SOURCES, MOST_TEXT_LENGTH,
};
use trials::compared::generated;
use trials::demand3::dealings;
use trials::lent::Around;
use trials::sides::{proved, rival};

#[test]
fn the_rust_side_is_right() {
    generated(rival, 3, 24_000, Around::Guards).expect("the reference's answers");
    dealings(rival, 3, 240).expect("the whole registers' reports");
}

/// A side that writes on refusal, one that touches bytes behind the answered length, and one that answers another place.
#[test]
fn what_differs_is_found() {
    let wrong: [trials::sides::Side; 3] = [
        |entry, first, second, number, buffer| {
            let answer = proved(entry, first, second, number, buffer);
            if answer[0] != 0 && !buffer.is_empty() && entry == Entry::Calculate {
                buffer[0] ^= 1;
            }
            answer
        },
        |entry, first, second, number, buffer| {
            let answer = proved(entry, first, second, number, buffer);
            if let (0, Some(behind)) = (answer[0], buffer.get_mut(answer[2] as usize)) {
                *behind ^= 1;
            }
            answer
        },
        |entry, first, second, number, buffer| {
            let [answer, place, length] = proved(entry, first, second, number, buffer);
            [answer, place + u64::from(answer == 11), length]
        },
    ];
    for (index, side) in wrong.into_iter().enumerate() {
        let found = generated(side, 4, 2_400, Around::Guards).expect_err("it differs");
        assert!(found.contains("seed 4, call "), "side {index}: {found}");
    }
    let none_combined: trials::sides::Side = |entry, first, second, number, buffer| match entry {
        Entry::Combine => [9, 1, 0],
        _ => proved(entry, first, second, number, buffer),
    };
    assert!(dealings(none_combined, 4, 20).is_err());
}

/// A call of each entry point over as many sources or cards as there may be.
fn largest_calls() -> Vec<Call> {
    const HALF: usize = MOST_SOURCES / 2;
    let mut random = Random::of(5, 0);
    let draft = registers::valid_of(&mut random, MOST_SOURCES);
    let last = draft.sources[MOST_SOURCES - 1].number;
    let mut halves = [draft.clone(), draft.clone()];
    halves[0].sources.truncate(HALF);
    halves[1].sources.drain(..HALF);
    let [first, second] = halves.map(|half| Call::calculate(&half.bytes(), report_length(HALF)).reply().buffer);
    let register = draft.bytes();
    let report = Call::calculate(&register, MOST_REPORT_LENGTH).reply().buffer;
    vec![
        Call::calculate(&register, MOST_REPORT_LENGTH),
        Call::combine(&first, &second, MOST_REPORT_LENGTH),
        Call::remove(&report, last, report_length(MOST_SOURCES - 1)),
        Call::check(&report),
        Call::text(&report, MOST_TEXT_LENGTH),
        Call::name(&register, last),
        Call::name_of_two(&register, &register, last),
        Call::amounts(&cards::valid_of(&mut random, MOST_CARDS), MOST_AMOUNTS_LENGTH),
    ]
}

#[test]
fn a_stack_of_64_kib_is_enough() {
    for call in largest_calls() {
        let expected = call.reply();
        let thread = std::thread::Builder::new().stack_size(64 * 1024);
        let made = thread.spawn(move || {
            let mut buffer = vec![call.fill; call.room];
            let answer = proved(call.entry, &call.first, &call.second, call.number, &mut buffer);
            (answer, buffer)
        });
        let (answer, buffer) = made.expect("a thread").join().expect("an answer");
        assert_eq!(answer[..expected.answer.len()], expected.answer);
        assert!(buffer == expected.buffer);
    }
}
