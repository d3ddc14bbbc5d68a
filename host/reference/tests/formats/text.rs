//! The page as text: its tables by their columns, its cells as numbers. What is not understood is a failure.

use std::ops::RangeInclusive;

/// The page, without the commas inside its figures.
pub fn page() -> String {
    let page = include_str!("../../../../docs/FORMATS.md").as_bytes();
    let is_digit = |at: usize| page.get(at).is_some_and(u8::is_ascii_digit);
    let is_inside = |at: usize| page[at] == b',' && is_digit(at.wrapping_sub(1)) && is_digit(at + 1);
    let kept = (0..page.len()).filter(|&at| !is_inside(at)).map(|at| page[at]);
    String::from_utf8(kept.collect()).expect("without some commas it is still text")
}

/// The rows of a table, cell by cell: of the one with these columns between its heading and the next.
pub fn table(heading: &str, columns: &str) -> Vec<Vec<String>> {
    let page = page();
    let part = page.lines().skip_while(|line| *line != heading).skip(1).take_while(|line| !line.starts_with('#'));
    let mut lines = part.skip_while(|line| *line != columns);
    let width = cells(lines.next().unwrap_or_else(|| panic!("{heading:?} has no table {columns}"))).len();
    assert_eq!(lines.next(), Some(format!("|{}", "---|".repeat(width)).as_str()), "{columns}");
    let rows: Vec<Vec<String>> = lines.take_while(|line| line.starts_with('|')).map(cells).collect();
    assert!(rows.iter().all(|row| row.len() == width), "{columns}: {rows:?}");
    rows
}

fn cells(row: &str) -> Vec<String> {
    let inside = row.strip_prefix("| ").and_then(|rest| rest.strip_suffix(" |"));
    let inside = inside.unwrap_or_else(|| panic!("no row: {row}"));
    inside.split(" | ").map(str::to_string).collect()
}

/// A plain decimal without leading zeros.
pub fn number(text: &str) -> u64 {
    let number: u64 = text.parse().unwrap_or_else(|error| panic!("{text:?}: {error}"));
    assert_eq!(number.to_string(), text);
    number
}

/// "0 to 10,000", or one number by itself.
pub fn range(text: &str) -> RangeInclusive<u64> {
    let (least, most) = text.split_once(" to ").unwrap_or((text, text));
    number(least)..=number(most)
}

/// A number and what it is called, if anything: "3 solid". No second number stands in its name.
pub fn called(item: &str) -> (u64, &str) {
    let (figure, name) = item.split_once(' ').unwrap_or((item, ""));
    let is_figure = |word: &str| word.starts_with(|first: char| first.is_ascii_digit());
    assert!(!name.split(' ').any(is_figure), "two numbers: {item:?}");
    (number(figure), name)
}

/// "1 to 4", or "1, 2", or "1 gas, 2 liquid".
pub fn numbers<T: TryFrom<u64>>(text: &str) -> Vec<T> {
    let fitting = |number| T::try_from(number).unwrap_or_else(|_| panic!("{text:?}: {number} is too large"));
    if text.contains(" to ") {
        return range(text).map(fitting).collect();
    }
    text.split(", ").map(|item| fitting(called(item).0)).collect()
}

/// One number, with its name or without.
pub fn single<T: TryFrom<u64>>(text: &str) -> T {
    let only: Result<[T; 1], _> = numbers(text).try_into();
    let [number] = only.unwrap_or_else(|_| panic!("not one number: {text:?}"));
    number
}

/// The cell up to words that have to end it.
pub fn before<'a>(cell: &'a str, end: &str) -> &'a str {
    cell.strip_suffix(end).unwrap_or_else(|| panic!("{cell:?} does not end with {end:?}"))
}
