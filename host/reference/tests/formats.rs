//! `docs/FORMATS.md` against the reference: which pairs and lines its tables allow, what they make of them, what it says
//! of stock cards, and the limits that it names. Who writes a program by that page writes it by these figures.

#[path = "formats/cards.rs"]
mod cards;
#[path = "formats/formula.rs"]
mod formula;
#[path = "formats/kinds.rs"]
mod kinds;
#[path = "formats/limits.rs"]
mod limits;
#[path = "formats/text.rs"]
mod text;

use std::collections::{BTreeMap, BTreeSet};
use std::ops::RangeInclusive;

use formula::Factor;
use kinds::{Page, Row, ACID_COLUMNS, KIND_COLUMNS, METHODS_PART, PAIR_COLUMNS};
use reference::calls::calculate;
use reference::draft::{boiler_line, line, register, source};
use reference::examples;
use reference::layout::{line_at, report_length};
use reference::listing::listing;
use reference::masses::Masses;
use reference::register::{Line, Register};
use reference::report::Report;
use text::{called, table};

fn one_source(number: u32, method: u8, parameter: u8, lines: &[Line]) -> Vec<u8> {
    register(2023, vec![source(number, method, parameter, lines)]).bytes()
}

/// What the reference makes of a register of one source: its masses, or the number of the refusal.
fn calculated(register: &[u8]) -> Result<Masses, u32> {
    let mut buffer = [0; report_length(1)];
    match calculate(register, &mut buffer).number {
        0 => Ok(Report::read(&buffer).expect("a written report is well-formed").entries[0].masses),
        refused => Err(refused),
    }
}

#[test]
fn pairs_are_those_listed() {
    let pairs = Page::read().pairs;
    for method in 0..=u8::MAX {
        for parameter in 0..=u8::MAX {
            let is_listed = pairs.get(&method).is_some_and(|parameters| parameters.contains(&parameter));
            let is_refused = calculated(&one_source(7, method, parameter, &[boiler_line()])) == Err(3);
            assert_eq!(is_refused, !is_listed, "method {method}, parameter {parameter}");
        }
    }
}

/// Every line that can be made of these.
fn lines_of(kinds: &[u8], units: &[u8], codes: &[u16], a: &[u32], b: &[u32], q: &[u64]) -> Vec<Line> {
    let mut lines = vec![];
    for &kind in kinds {
        for &unit in units {
            for &code in codes {
                for &a in a {
                    for &b in b {
                        lines.extend(q.iter().map(|&q| line(kind, unit, code, a, b, q)));
                    }
                }
            }
        }
    }
    lines
}

/// The numbers at which ranges begin and end, and those just outside.
fn edges<T: TryFrom<u64>>(ranges: impl Iterator<Item = RangeInclusive<u64>>) -> Vec<T> {
    let edges =
        ranges.flat_map(|range| [range.start().saturating_sub(1), *range.start(), *range.end(), range.end() + 1]);
    let once: BTreeSet<u64> = edges.collect();
    once.into_iter().map(|edge| T::try_from(edge).unwrap_or_else(|_| panic!("{edge} is too large"))).collect()
}

/// Some numbers together with those that the page names, each once.
fn with<T: Ord>(some: impl Iterator<Item = T>, named: impl Iterator<Item = T>) -> Vec<T> {
    let once: BTreeSet<T> = some.chain(named).collect();
    once.into_iter().collect()
}

/// Lines with every kind, unit and code that the page names and many that it does not, at the edges of A, B and Q.
fn tried_lines(page: &Page) -> Vec<Line> {
    let (rows, limits) = (&page.rows, &page.limits);
    let single_a = rows.iter().filter_map(|row| row.single_a).map(|a| a..=a);
    lines_of(
        &with(0..=40, rows.iter().flat_map(|row| row.kinds.clone())),
        &with(0..=5, rows.iter().flat_map(|row| row.units.clone())),
        &with(0..=5, rows.iter().flat_map(|row| row.codes.clone())),
        &edges(limits.most_a.iter().map(|&(_, most)| 0..=most).chain(single_a)),
        &edges(rows.iter().map(|row| row.b.clone())),
        &edges([limits.q.clone()].into_iter()),
    )
}

/// The line stands in the register as the page lays it out.
#[test]
fn lines_are_taken_by_a_row() {
    let page = Page::read();
    let lines = tried_lines(&page);
    for (&method, parameters) in &page.pairs {
        for &parameter in parameters {
            let mut register = one_source(7, method, parameter, &[boiler_line()]);
            for line in &lines {
                page.limits.put(line, &mut register[line_at(1, 0)..]);
                let is_refused = calculate(&register, &mut [0; report_length(1)]).number == 5;
                let is_taken = page.row_of(method, parameter, line).is_some();
                assert_eq!(is_refused, !is_taken, "method {method}, parameter {parameter}, {line:?}");
            }
        }
    }
}

/// Lines that a row takes, with figures that come out whole, at a half and in between.
fn lines_taken(page: &Page, row: &Row) -> Vec<Line> {
    let a = [0, 1, 31_250, 749_000, 1_000_000];
    let b = [0, 1, 5, 350, 9_999, 10_000];
    let q = [0, 1, 3, 999, 1_000, 1_234_567, 10_000_000_000];
    let mut lines = lines_of(&row.kinds, &row.units, &row.codes, &a, &b, &q);
    lines.retain(|line| row.takes(line, &page.limits));
    lines
}

/// A large line that adds to a row's gas in the same source.
fn adding_line(page: &Page, row: &Row, parameter: u8) -> Line {
    let adds = |other: &&Row| {
        let formula = &other.formula;
        other.method == row.method
            && other.parameters.contains(&parameter)
            && formula.adds
            && formula.gas == row.formula.gas
    };
    let adding = page.rows.iter().find(adds).expect("what can be taken from a gas was added to it");
    *lines_taken(page, adding).last().expect("the row takes some line")
}

/// By itself, where taking from nothing is 6, and beside a line that adds.
#[test]
fn lines_count_as_their_formula_says() {
    let page = Page::read();
    for row in &page.rows {
        let lines = lines_taken(&page, row);
        assert!(!lines.is_empty());
        for &parameter in &row.parameters {
            let adding = adding_line(&page, row, parameter);
            for line in &lines {
                for lines in [&[*line][..], &[*line, adding]] {
                    let masses = calculated(&one_source(7, row.method, parameter, lines));
                    let said = page.masses(row.method, parameter, lines);
                    assert_eq!(masses, said, "method {}, parameter {parameter}, {lines:?}", row.method);
                }
            }
        }
    }
}

/// The table of a line's fields repeats what the table of kinds says of all kinds together.
#[test]
fn the_table_of_fields_agrees_with_that_of_kinds() {
    let Page { limits, rows, .. } = Page::read();
    let units: BTreeSet<u8> = rows.iter().flat_map(|row| row.units.clone()).collect();
    assert!(limits.units.iter().eq(&units), "units {:?} and {units:?}", limits.units);
    assert!(limits.most_a.iter().map(|(unit, _)| unit).eq(&units), "A {:?} with units {units:?}", limits.most_a);
    let with_single_a = rows.iter().filter_map(|row| row.single_a.map(|a| (row.kinds.as_slice(), a)));
    let (kind, a) = limits.single_a;
    assert_eq!(with_single_a.collect::<Vec<_>>(), [(&[kind][..], a)]);
    let mut shares = rows.iter().map(|row| &row.b).filter(|b| b.start() != b.end());
    assert!(shares.all(|share| *share == limits.b), "B {:?}", limits.b);
}

/// The figures by name, and the power of ten in whose parts the page says that each is stated.
fn powers_stated() -> BTreeMap<String, u32> {
    let rows = table(METHODS_PART, "| figure | stated in | so that |");
    let power = |parts: &str| match parts.split(' ').next() {
        Some("tenths") => 1,
        Some("thousandths") => 3,
        Some("ten-thousandths") => 4,
        Some("millionths") => 6,
        _ => panic!("no parts: {parts:?}"),
    };
    rows.iter().map(|row| (row[0].clone(), power(&row[1]))).collect()
}

/// Only f is in grams: everything else is in tonnes, of 10^6 grams.
#[test]
fn divisors_follow_from_what_figures_are_stated_in() {
    let powers = powers_stated();
    let figure = |factor: &Factor| match factor {
        Factor::Q => "Q",
        Factor::A => "A",
        Factor::B | Factor::RestOfB(_) => "B",
        Factor::Figure(_) | Factor::K => "3664; k",
        Factor::F => "f",
    };
    for Row { formula, kinds, .. } in &Page::read().rows {
        let figures: Vec<&str> = formula.factors.iter().map(figure).collect();
        let of_tonne = if figures.contains(&"f") { 0 } else { 6 };
        let stated: u32 = figures.iter().map(|figure| powers[*figure]).sum();
        assert_eq!(stated, formula.power + of_tonne, "kinds {kinds:?}");
    }
}

#[test]
fn methods_are_called_as_in_listings() {
    let kinds = table(METHODS_PART, KIND_COLUMNS).into_iter().filter(|row| !row[0].contains(", parameter "));
    let pairs = table(METHODS_PART, PAIR_COLUMNS).into_iter();
    for cell in kinds.chain(pairs).map(|row| row[0].clone()) {
        for (method, name) in cell.split(", ").map(called) {
            let register = one_source(7, method as u8, 0, &[boiler_line()]);
            let listing = listing(&register).expect("the header is right");
            assert!(listing.contains(&format!(" {method} {name}  ")), "{cell}");
        }
    }
}

/// What is made, and how: the example has a source of each, and names it so.
#[test]
fn parameters_are_called_as_in_the_example() {
    let (_, bytes) = &examples::all()[1];
    let example = Register::read(bytes).expect("the example is right");
    let name_of = |method: u8, parameter: u64| {
        let source = example.sources.iter().find(|s| s.method == method && u64::from(s.parameter) == parameter);
        let name = String::from_utf8_lossy(example.name(source.expect("the example has every pair"))).to_lowercase();
        name.rsplit(", ").next().unwrap_or(&name).to_string()
    };
    let pairs = table(METHODS_PART, PAIR_COLUMNS);
    let products = &pairs.iter().find(|row| row[0] == "4 petrochemical").expect("method 4 has a row of its own")[1];
    for (parameter, product) in products.split(", ").map(called) {
        assert_eq!(product, name_of(4, parameter), "parameter {parameter}");
    }
    let ways = &table(METHODS_PART, ACID_COLUMNS)[0];
    for (parameter, way) in (0..).zip(ways).skip(1) {
        assert!(way.ends_with(&name_of(6, parameter)), "parameter {parameter}: {way}");
    }
}
