//! Sums whose results are known: document 01's by hand, the source documents' own pairs, rounding, every factor.

use reference::calls::calculate;
use reference::layout::report_length;
use reference::report::Report;
use reference::sums::{by_hand, factors, printed, rounding, Known, Sum};

fn calculated(sum: &Sum) -> Known {
    let mut buffer = [0; report_length(1)];
    let answer = calculate(&sum.register(), &mut buffer);
    if answer.number != 0 {
        assert_eq!((answer.place, answer.length), (0, 0), "{}", sum.name);
        return Known::Refused(answer.number);
    }
    let report = Report::read(&buffer).expect("a written report is well-formed");
    let masses = report.entries[0].masses;
    Known::Grams(masses, masses.equivalent() as u64)
}

fn compare(sums: Vec<Sum>) {
    for sum in sums {
        assert_eq!(calculated(&sum), sum.known, "{}", sum.name);
    }
}

#[test]
fn sums_done_by_hand() {
    compare(by_hand());
}

#[test]
fn printed_factors_of_the_source_documents() {
    compare(printed());
}

#[test]
fn sums_are_rounded_once() {
    compare(rounding());
}

#[test]
fn every_factor() {
    compare(factors());
}
