//! The generator gives the same calls again, reaches every answer, and spoils what it means to spoil.

use std::collections::BTreeSet;

use reference::answers::LAST_REFUSAL;
use reference::call::{Call, Entry};
use reference::calls::{calculate, check};
use reference::cards::{amounts_of, AMOUNTS};
use reference::generator::faults::{spoilt, FAULTS};
use reference::generator::{call, cards, counts, registers, reports, Random};
use reference::layout::{CARD_LENGTH, MOST_CARDS_LENGTH, MOST_REGISTER_LENGTH, MOST_REPORT_LENGTH};
use reference::methods::{contribution, Gas};
use reference::register::Register;

fn refusal_of(register: &[u8]) -> u32 {
    calculate(register, &mut [0; MOST_REPORT_LENGTH]).number
}

#[test]
fn calls_come_again() {
    for index in 0..200 {
        assert_eq!(call(7, index), call(7, index));
    }
    assert_ne!(call(7, 0), call(8, 0));
}

#[test]
fn every_answer_is_reached() {
    let counts = counts(1, 13_000);
    for number in 0..=LAST_REFUSAL {
        assert!(counts.contains_key(&format!("{number:>2}")), "{number}: {counts:?}");
    }
    assert!(counts.contains_key("a name") && counts.contains_key("no name"));
}

#[test]
fn valid_registers_are_accepted() {
    for index in 0..300 {
        let draft = registers::valid(&mut Random::of(2, index));
        let bytes = draft.bytes();
        assert!(bytes.len() <= MOST_REGISTER_LENGTH);
        assert_eq!(refusal_of(&bytes), 0, "register {index}");
    }
}

#[test]
fn a_fault_alone_gives_its_refusal() {
    for (index, fault) in FAULTS.iter().enumerate() {
        for turn in 0..50 {
            let mut random = Random::of(3, turn);
            let draft = registers::valid_of_some(&mut random);
            let register = spoilt(draft, &[fault], &mut random);
            assert_eq!(refusal_of(&register), fault.refusal, "fault {index}, turn {turn}");
        }
    }
}

/// "Calculation tests 1, 2 by field, 3 over all sources, ..": of two faults that give different numbers the smaller
/// number shows. Two faults of one number may undo each other, or show at either place.
#[test]
fn two_faults_give_the_smaller_refusal() {
    for (i, first) in FAULTS.iter().enumerate() {
        for (j, second) in FAULTS.iter().enumerate() {
            let both = [first.refusal, second.refusal];
            if both[0] == both[1] || both == [6, 7] || both == [7, 6] {
                continue;
            }
            for turn in 0..3 {
                let mut random = Random::of(4, turn);
                let draft = registers::valid_of_some(&mut random);
                let register = spoilt(draft, &[first, second], &mut random);
                assert_eq!(Some(&refusal_of(&register)), both.iter().min(), "faults {i} and {j}, turn {turn}");
            }
        }
    }
}

#[test]
fn valid_reports_are_well_formed_and_faults_are_not() {
    for turn in 0..100 {
        let report = reports::valid(&mut Random::of(5, turn)).bytes();
        assert_eq!(check(&report).number, 0, "report {turn}");
        for fault in 0..reports::FAULTS.len() {
            let report = reports::spoilt(&mut Random::of(6, turn), &[fault]);
            assert_eq!(check(&report).number, 9, "fault {fault}, turn {turn}");
        }
    }
}

/// Also where the first cuts the report to nothing, and the second finds no byte.
#[test]
fn a_fault_of_a_report_can_be_made_twice() {
    for fault in 0..reports::FAULTS.len() {
        for turn in 0..2_000 {
            reports::spoilt(&mut Random::of(7, turn), &[fault, fault]);
        }
    }
}

/// A calculation of the second family, which is that of the edges, of thirteen.
fn at_an_edge(turn: u64) -> Call {
    call(9, 13 * turn + 1)
}

/// The exact sums of every source of the generated registers at an edge, by gas.
fn sums_at_edges() -> Vec<(Gas, i128)> {
    let mut sums = vec![];
    for turn in 0..600 {
        let call = at_an_edge(turn);
        let register = Register::read(&call.first).expect("an edge is one of sums");
        for source in &register.sources {
            for gas in [Gas::Co2, Gas::Ch4, Gas::N2o] {
                let lines = register.lines_of(source).iter();
                let added = lines.filter_map(|line| contribution(source.method, source.parameter, line));
                sums.push((gas, added.filter(|added| added.0 == gas).map(|added| added.1).sum()));
            }
        }
    }
    sums
}

#[test]
fn edges_are_met() {
    let sums = sums_at_edges();
    let reached = |gas, is_edge: fn(i128) -> bool| sums.iter().any(|&(of, sum)| of == gas && is_edge(sum));
    assert!(reached(Gas::Co2, |sum| sum > 0 && sum % 10_000_000_000 == 5_000_000_000));
    assert!(reached(Gas::Ch4, |sum| sum % 10_000_000 == 5_000_000));
    assert!(reached(Gas::N2o, |sum| sum % 10_000 == 5_000));
    assert!(reached(Gas::Co2, |sum| sum == -380));
    assert!(reached(Gas::Co2, |sum| sum == -36_640_000));
    assert!(reached(Gas::Ch4, |sum| sum == 400_000_000_000_000_000_000));
    let answers: Vec<u32> = (0..600).map(|turn| refusal_of(&at_an_edge(turn).first)).collect();
    assert!([0, 6, 7].iter().all(|number| answers.contains(number)));
    assert!(answers.iter().all(|number| [0, 6, 7].contains(number)));
}

#[test]
fn valid_cards_are_accepted_and_faults_are_not() {
    for turn in 0..300 {
        assert!(amounts_of(&cards::valid(&mut Random::of(14, turn))).is_ok(), "cards {turn}");
        for (index, fault) in cards::FAULTS.iter().enumerate() {
            let refusal = amounts_of(&cards::spoilt(&mut Random::of(15, turn), &[index])).expect_err("a fault");
            assert_eq!(refusal.number, fault.refusal, "fault {index}, turn {turn}");
        }
    }
}

/// "then 14 for an entry out of range, then 15": of two faults that give different numbers 14 shows. Two of one number
/// may undo each other.
#[test]
fn two_faults_of_cards_give_14() {
    for (i, first) in cards::FAULTS.iter().enumerate() {
        for (j, second) in cards::FAULTS.iter().enumerate() {
            for turn in 0..20 {
                let refusal = amounts_of(&cards::spoilt(&mut Random::of(16, turn), &[i, j])).err();
                if first.refusal != second.refusal {
                    assert_eq!(refusal.map(|refusal| refusal.number), Some(14), "faults {i} and {j}, turn {turn}");
                }
            }
        }
    }
}

/// The generated calls for amounts of a seed.
fn calls_for_amounts() -> impl Iterator<Item = Call> {
    (0..40_000).map(|index| call(17, index)).filter(|call| call.entry == Entry::Amounts)
}

/// 14 of a length, of card 0 and of a later card, 15 of card 0 and of a later card, 8, and lengths at their edges.
#[test]
fn every_answer_for_amounts_is_reached() {
    let mut answers = BTreeSet::new();
    for call in calls_for_amounts() {
        let is_whole = call.first.len().is_multiple_of(CARD_LENGTH) && call.first.len() <= MOST_CARDS_LENGTH;
        let [number, place, length] = call.reply().answer[..] else { panic!("three numbers") };
        answers.insert((number, place.min(1), length.min(1), is_whole));
    }
    let accepted = [(0, 0, 0, true), (0, 0, 1, true), (8, 1, 0, true)];
    let refused = [(14, 0, 0, false), (14, 0, 0, true), (14, 1, 0, true), (15, 0, 0, true), (15, 1, 0, true)];
    assert_eq!(answers, accepted.into_iter().chain(refused).collect());
    let lengths: BTreeSet<usize> = calls_for_amounts().map(|call| call.first.len()).collect();
    assert!([0, 32, 32_736, 32_768, 32_769, 32_799, 32_800].iter().all(|length| lengths.contains(length)));
    let parts: BTreeSet<usize> = lengths.iter().map(|length| length % CARD_LENGTH).collect();
    assert!([1, 31].iter().all(|part| parts.contains(part)));
}

#[test]
fn edges_of_amounts_are_met() {
    let accepted = calls_for_amounts().filter_map(|call| amounts_of(&call.first).ok());
    let amounts: BTreeSet<i128> = accepted.flatten().map(i128::from).collect();
    for amount in [0, 1, AMOUNTS.end() - 1, *AMOUNTS.end()] {
        assert!(amounts.contains(&amount), "{amount}");
    }
}
