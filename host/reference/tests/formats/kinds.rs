//! What the page says of methods, kinds and lines, out of its tables.

use std::collections::BTreeMap;
use std::ops::{Range, RangeInclusive};

use reference::layout::GASES;
use reference::masses::Masses;
use reference::methods::Gas;
use reference::register::Line;

use crate::formula::{Formula, Stated, GRAM};
use crate::text::{before, number, numbers, range, single, table};

pub const METHODS_PART: &str = "## Methods and their lines";

pub const PAIR_COLUMNS: &str = "| method | parameter |";
pub const KIND_COLUMNS: &str = "| method | kind | unit | code | Q is | A is | B is | adds to or takes from |";
const CARBONATE_COLUMNS: &str = "| code of kinds 20 and 21 | 1 | 2 | 3 | 4 |";
pub const ACID_COLUMNS: &str = "| parameter of method 6 | 1 | 2 | 3 | 4 | 5 | 6 |";

/// All that the page says of lines.
pub struct Page {
    pub pairs: BTreeMap<u8, Vec<u8>>,
    pub limits: Limits,
    pub rows: Vec<Row>,
    stated: Stated,
}

/// What the table of a line's fields says: where they stand, and their limits whatever the kind is. It names one kind,
/// with its single A.
pub struct Limits {
    places: Vec<Range<usize>>,
    pub units: Vec<u8>,
    pub most_a: Vec<(u8, u64)>,
    pub single_a: (u8, u64),
    pub b: RangeInclusive<u64>,
    pub q: RangeInclusive<u64>,
}

/// A row of the table of kinds.
pub struct Row {
    pub method: u8,
    pub parameters: Vec<u8>,
    pub kinds: Vec<u8>,
    pub units: Vec<u8>,
    pub codes: Vec<u16>,
    pub single_a: Option<u64>,
    pub b: RangeInclusive<u64>,
    pub formula: Formula,
}

impl Page {
    pub fn read() -> Page {
        let pairs = pairs();
        let rows = table(METHODS_PART, KIND_COLUMNS).iter().map(|cells| Row::read(cells, &pairs)).collect();
        let stated = Stated { k: last_row(CARBONATE_COLUMNS, "k"), f: last_row(ACID_COLUMNS, "f") };
        Page { pairs, limits: Limits::read(), rows, stated }
    }

    /// The row that takes a line, and there is no second.
    pub fn row_of(&self, method: u8, parameter: u8, line: &Line) -> Option<&Row> {
        let mut taking = self
            .rows
            .iter()
            .filter(|row| row.method == method && row.parameters.contains(&parameter) && row.takes(line, &self.limits));
        let row = taking.next();
        assert!(taking.next().is_none(), "two rows take {line:?} of method {method}, parameter {parameter}");
        row
    }

    /// "Each sum is then rounded once, to the nearest gram, an exact half upward." Where CO2 is below zero, 6.
    pub fn masses(&self, method: u8, parameter: u8, lines: &[Line]) -> Result<Masses, u32> {
        let mut sums = [0; GASES];
        for line in lines {
            let row = self.row_of(method, parameter, line).expect("the page takes the line");
            sums[row.formula.gas as usize] += row.formula.amount(parameter, line, &self.stated);
        }
        if sums[Gas::Co2 as usize] < 0 {
            return Err(6);
        }
        let rounded = |sum: i128| u64::try_from((2 * sum + GRAM).div_euclid(2 * GRAM)).expect("a mass of 64 bits");
        let [co2, ch4, n2o] = sums.map(rounded);
        Ok(Masses { co2, ch4, n2o })
    }
}

/// The parameters listed with each method.
fn pairs() -> BTreeMap<u8, Vec<u8>> {
    let mut listed = BTreeMap::new();
    for row in table(METHODS_PART, PAIR_COLUMNS) {
        let parameters = row[1].strip_suffix(", the plant's way of making it, below").unwrap_or(&row[1]);
        for method in numbers(&row[0]) {
            let earlier = listed.insert(method, numbers(parameters));
            assert!(earlier.is_none(), "method {method} stands twice");
        }
    }
    listed
}

/// The figures of a table's second row, which has this name; the first says what they are of.
fn last_row(columns: &str, name: &str) -> Vec<i128> {
    let rows = table(METHODS_PART, columns);
    let [_, last] = &rows[..] else { panic!("not two rows under {columns}: {rows:?}") };
    assert_eq!(last[0], name, "{columns}");
    last[1..].iter().map(|figure| number(figure).into()).collect()
}

impl Limits {
    fn read() -> Limits {
        let rows = table("### Line", "| byte | width | field | must be |");
        assert_eq!(rows.len(), 6, "{rows:?}");
        let field = |index: usize, name: &str| {
            assert_eq!(rows[index][2], name);
            rows[index][3].as_str()
        };
        assert_eq!(field(0, "kind"), "one of the method's kinds, below");
        assert_eq!(field(2, "code"), "as the kind says");
        let (most_a, single_a) = field(3, "A").rsplit_once("; ").expect("limits by the unit, and a kind's single A");
        let most_a: Vec<(u8, u64)> = most_a.split("; ").flat_map(most_a_of_units).collect();
        Limits {
            places: rows.iter().map(|row| place(&row[0], &row[1])).collect(),
            units: numbers(&before(field(1, "unit"), ", as the kind allows").replace(" or ", ", ")),
            most_a,
            single_a: single_a_of_kind(single_a),
            b: range(before(field(4, "B"), ", where the kind asks for no single value")),
            q: range(before(field(5, "Q"), " thousandths of the unit")),
        }
    }

    /// Writes a line over another.
    pub fn put(&self, line: &Line, bytes: &mut [u8]) {
        let values =
            [line.kind.into(), line.unit.into(), line.code.into(), line.a.into(), line.b.into(), line.quantity];
        for (place, value) in self.places.iter().zip(values) {
            bytes[place.clone()].copy_from_slice(&u64::to_le_bytes(value)[..place.len()]);
        }
    }
}

pub fn place(byte: &str, width: &str) -> Range<usize> {
    let [first, width] = [byte, width].map(single::<u8>).map(usize::from);
    first..first + width
}

/// "with units 2, 3 and 4 at most 99,999,999"
fn most_a_of_units(clause: &str) -> Vec<(u8, u64)> {
    let rest = clause.strip_prefix("with unit ").or(clause.strip_prefix("with units "));
    let (units, most) = rest.and_then(|rest| rest.split_once(" at most ")).unwrap_or_else(|| panic!("A: {clause}"));
    numbers(&units.replace(" and ", ", ")).into_iter().map(|unit| (unit, number(most))).collect()
}

/// "in kind 30 exactly 0"
fn single_a_of_kind(clause: &str) -> (u8, u64) {
    let rest = clause.strip_prefix("in kind ").and_then(|rest| rest.split_once(" exactly "));
    let (kind, a) = rest.unwrap_or_else(|| panic!("A: {clause}"));
    (single(kind), number(a))
}

impl Row {
    /// What Q is of is said in words alone.
    fn read(cells: &[String], pairs: &BTreeMap<u8, Vec<u8>>) -> Row {
        let [method, kind, unit, code, _, a, b, formula] = cells else { panic!("no row of a kind: {cells:?}") };
        let (method, parameters) = match method.split_once(", parameter ") {
            Some((method, some)) => (single(method), numbers(&before(some, " only").replace(" or ", ", "))),
            None => (single(method), pairs[&single(method)].clone()),
        };
        Row {
            method,
            parameters,
            kinds: numbers(kind),
            units: numbers(unit),
            codes: numbers(code),
            single_a: single_a(a),
            b: range_of_b(b),
            formula: Formula::read(formula),
        }
    }

    pub fn takes(&self, line: &Line, limits: &Limits) -> bool {
        self.kinds.contains(&line.kind)
            && self.units.contains(&line.unit)
            && self.codes.contains(&line.code)
            && limits.most_a.iter().all(|&(unit, most)| unit != line.unit || u64::from(line.a) <= most)
            && self.single_a.is_none_or(|a| a == u64::from(line.a))
            && self.b.contains(&line.b.into())
            && limits.q.contains(&line.quantity)
    }
}

/// Where A stands for something, the unit alone limits it.
fn single_a(cell: &str) -> Option<u64> {
    match cell {
        "carbon" | "tonnes of CH4 per unit" | "the carbonate's share" => None,
        _ => Some(exactly(cell)),
    }
}

/// "exactly 10,000", or "share unburned, 0 to 10,000".
fn range_of_b(cell: &str) -> RangeInclusive<u64> {
    match cell.split_once(", ") {
        Some(("share oxidised" | "share unburned" | "share calcined", share)) => range(share),
        _ => exactly(cell)..=exactly(cell),
    }
}

fn exactly(cell: &str) -> u64 {
    number(cell.strip_prefix("exactly ").unwrap_or_else(|| panic!("neither a share nor one number: {cell:?}")))
}
