//! Refusal 9, by the report check.

use super::{accepted, group, refused, Case, Group};
use crate::call::Call;
use crate::draft::edited;
use crate::layout::{entry_at, figure_at, report_length, total_at, ENTRIES_AT, FIGURE_LENGTH, GASES};
use crate::masses::Masses;
use crate::report::{Entry, Report};

pub fn groups() -> Vec<Group> {
    vec![
        group("Well-formed reports, at both ends of what they may hold.", well_formed()),
        group("9: each condition of a report's header.", wrong_headers()),
        group("9: the bytes lent are not as many as the report says.", wrong_lengths()),
        group("9: each condition of an entry, totals being the sums.", wrong_entries()),
        group("9: totals that are not the sums.", wrong_totals()),
    ]
}

/// An entry of a fuel source.
pub fn entry(number: u32, grams: u64) -> Entry {
    let masses = Masses { co2: grams, ..Masses::default() };
    Entry { number, method: 1, masses }
}

/// A report of 2023 with an entry for each number, in that order.
pub fn report(numbers: &[u32]) -> Vec<u8> {
    let entries = numbers.iter().map(|&number| entry(number, u64::from(number) + 1_000));
    Report { year: 2023, entries: entries.collect() }.bytes()
}

pub fn of_entries(entries: Vec<Entry>) -> Vec<u8> {
    Report { year: 2023, entries }.bytes()
}

/// An entry with the largest equivalent there is.
pub fn largest(number: u32) -> Entry {
    entry(number, 1_000_000_000_000_000)
}

fn with_masses(number: u32, method: u8, co2: u64, ch4: u64, n2o: u64) -> Entry {
    Entry { number, method, masses: Masses { co2, ch4, n2o } }
}

fn right(name: &str, report: Vec<u8>) -> Case {
    accepted(name, Call::check(&report), report.len() as u64)
}

fn wrong(name: impl Into<String>, report: Vec<u8>) -> Case {
    refused(name, Call::check(&report), 9, 1)
}

/// Every report here that is not well-formed, with its name.
pub fn malformed() -> Vec<(String, Vec<u8>)> {
    let refused = [wrong_headers(), wrong_lengths(), wrong_entries(), wrong_totals()].into_iter().flatten();
    refused.filter(|case| case.answer[0] == 9).map(|case| (case.name, case.call.first)).collect()
}

fn well_formed() -> Vec<Case> {
    let every_method = (1..=6).map(|method| with_masses(method.into(), method, 1, 2, 3));
    let largest_report = (1..=512).map(largest).collect();
    vec![
        right("the empty report", report(&[])),
        right("one entry", report(&[7])),
        right("numbers 1 and 2^32 - 1", report(&[1, u32::MAX])),
        right("year 1990", edited(&report(&[7]), 6, 2, 1990)),
        right("year 2100", edited(&report(&[7]), 6, 2, 2100)),
        right("every method, with masses it cannot have", of_entries(every_method.collect())),
        right("equivalent 10^15 by CO2", of_entries(vec![largest(1)])),
        right("equivalent 10^15 by CH4", of_entries(vec![with_masses(1, 2, 0, 40_000_000_000_000, 0)])),
        right("equivalent 10^15 by all gases", of_entries(vec![with_masses(1, 6, 247, 1, 3_355_704_697_985)])),
        right("masses of zero", of_entries(vec![entry(1, 0), entry(2, 0)])),
        right("512 entries of 10^15", of_entries(largest_report)),
    ]
}

fn wrong_headers() -> Vec<Case> {
    let right = report(&[7, 8, 9]);
    let fields: [(&str, usize, usize, &[u64]); 9] = [
        ("tag, byte", 0, 1, &[0x46]),
        ("tag, last byte", 3, 1, &[0x47]),
        ("layout", 4, 2, &[0, 2, 257]),
        ("year", 6, 2, &[0, 1989, 2101, 65_535]),
        ("count", 8, 2, &[0, 2, 4, 513, 65_535]),
        ("first zero", 10, 2, &[1, 256]),
        ("offset of entries", 12, 4, &[0, 55, 57, 96]),
        ("whole length", 16, 4, &[0, 175, 177, 65_712]),
        ("second zero", 20, 4, &[1, 256, 65_536, 16_777_216]),
    ];
    let mut cases = vec![wrong("a register's tag", [b"GREG", &right[4..]].concat())];
    for (name, place, width, values) in fields {
        for &value in values {
            cases.push(wrong(format!("{name} {value}"), edited(&right, place, width, value)));
        }
    }
    cases
}

fn wrong_lengths() -> Vec<Case> {
    let right = report(&[7, 8]);
    let longer = [&right[..], &[0]].concat();
    let entry_more = [&right[..], &right[entry_at(1)..]].concat();
    let too_many = (1..=513).map(|number| entry(number, 1)).collect();
    vec![
        wrong("no bytes", vec![]),
        wrong("the tag alone", right[..4].to_vec()),
        wrong("55 bytes of an empty report", report(&[])[..55].to_vec()),
        wrong("57 bytes, an empty report in front", [&report(&[])[..], &[0]].concat()),
        wrong("cut to the header", right[..ENTRIES_AT].to_vec()),
        wrong("cut by an entry", right[..entry_at(1)].to_vec()),
        wrong("cut by a byte", right[..right.len() - 1].to_vec()),
        wrong("one byte more", longer.clone()),
        wrong("one byte more, and says so", edited(&longer, 16, 4, longer.len() as u64)),
        wrong("an entry more, not counted", entry_more),
        wrong("513 entries", of_entries(too_many)),
    ]
}

fn wrong_entries() -> Vec<Case> {
    let method = |method| of_entries(vec![entry(1, 5), with_masses(2, method, 1, 2, 3)]);
    let with = |place: usize, value| edited(&report(&[7, 8]), entry_at(1) + place, 1, value);
    let stated = |equivalent| {
        let report = of_entries(vec![with_masses(1, 2, 1, 2, 3)]);
        let report = edited(&report, entry_at(0) + figure_at(GASES), FIGURE_LENGTH, equivalent);
        edited(&report, total_at(GASES), FIGURE_LENGTH, equivalent)
    };
    vec![
        wrong("number 0", report(&[0, 7])),
        wrong("number 0 alone", report(&[0])),
        wrong("equal numbers", report(&[7, 7])),
        wrong("descending numbers", report(&[8, 7])),
        wrong("the last two descend", report(&[1, 2, 4, 3])),
        wrong("descending, lowest bytes ascend", report(&[256, 1, 257])),
        wrong("method 0", method(0)),
        wrong("method 7", method(7)),
        wrong("method 255", method(255)),
        wrong("entry's first zero", with(5, 1)),
        wrong("entry's second zero", with(6, 1)),
        wrong("entry's third zero", with(7, 1)),
        wrong("equivalent one too small", stated(944)),
        wrong("equivalent one too large", stated(946)),
        wrong("equivalent 0", stated(0)),
        wrong("equivalent 10^15 + 1 by CO2", of_entries(vec![entry(1, 1_000_000_000_000_001)])),
        wrong("equivalent above 10^15 by CH4", of_entries(vec![with_masses(1, 2, 0, 40_000_000_000_001, 0)])),
        wrong("equivalent above 10^15 by N2O", of_entries(vec![with_masses(1, 6, 0, 0, 3_355_704_697_987)])),
        wrong("CH4 whose 25-fold wraps to 9", of_entries(vec![with_masses(1, 2, 0, 737_869_762_948_382_065, 0)])),
        wrong("N2O whose 298-fold wraps to 224", of_entries(vec![with_masses(1, 6, 0, 0, 61_901_825_750_702_520)])),
        wrong("CO2 and CH4 whose sum wraps to 0", of_entries(vec![with_masses(1, 2, u64::MAX - 24, 1, 0)])),
    ]
}

fn wrong_totals() -> Vec<Case> {
    let right = of_entries(vec![with_masses(1, 2, 5, 6, 7), with_masses(2, 2, 8, 9, 10)]);
    let mut cases = vec![];
    let sums = [("CO2", 13), ("CH4", 15), ("N2O", 17), ("equivalent", 5_454)];
    for (figure, (name, sum)) in sums.into_iter().enumerate() {
        let stated = |total| edited(&right, total_at(figure), FIGURE_LENGTH, total);
        cases.push(wrong(format!("{name}, one too small"), stated(sum - 1)));
        cases.push(wrong(format!("{name}, one too large"), stated(sum + 1)));
    }
    cases.push(wrong("empty report with a total", edited(&report(&[]), total_at(0), FIGURE_LENGTH, 1)));
    cases.push(wrong("a total's highest byte", edited(&right, total_at(1) - 1, 1, 1)));
    cases.push(accepted("totals that are the sums", Call::check(&right), report_length(2) as u64));
    cases
}
