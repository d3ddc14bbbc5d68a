//! The fields of a register and of stock cards as text, for people.

use crate::answers::Refusal;
use crate::bytes::number_at;
use crate::calls::{amounts_program, report_program};
use crate::cards::Card;
use crate::layout::{card_at, line_at, source_at, CARD_LENGTH};
use crate::register::Register;

/// The header's fields behind the tag: name, first byte, width.
const HEADER: [(&str, usize, usize); 9] = [
    ("layout", 4, 2),
    ("year", 6, 2),
    ("sources", 8, 2),
    ("lines", 10, 2),
    ("name bytes", 12, 4),
    ("offset of sources", 16, 4),
    ("offset of lines", 20, 4),
    ("offset of names", 24, 4),
    ("whole length", 28, 4),
];

/// The methods' names, by number.
const METHODS: [&str; 7] = ["", "fuel", "flare", "metals", "petrochemical", "cement", "nitric acid"];

/// Every field of a register whose header is right, and what the report program writes of it.
pub fn listing(bytes: &[u8]) -> Result<String, Refusal> {
    let register = Register::with_right_header(bytes)?;
    let report = report_program(bytes);
    Ok([
        header(bytes),
        sources(&register),
        lines(&register),
        format!("What the report program writes\n\n{}", String::from_utf8_lossy(&report)),
    ]
    .join("\n"))
}

fn header(bytes: &[u8]) -> String {
    let mut text = "Header\n\n  at  field              holds\n   0  tag                GREG\n".to_string();
    for (name, place, width) in HEADER {
        text += &format!("{place:>4}  {name:<17}  {}\n", number_at(bytes, place, width));
    }
    text
}

fn sources(register: &Register) -> String {
    let mut text =
        "Sources\n\n  at  index      number  method           parameter  lines  from  name bytes  from  name\n"
            .to_string();
    for (index, source) in register.sources.iter().enumerate() {
        let from = source.name_offset as usize;
        let name = register.names.get(from..from + usize::from(source.name_length));
        text += &format!(
            "{:>4}  {index:>5}  {:>10}  {:<15}  {:>9}  {:>5}  {:>4}  {:>10}  {from:>4}  {}\n",
            source_at(index),
            source.number,
            method(source.method),
            source.parameter,
            source.line_count,
            source.first_line,
            source.name_length,
            String::from_utf8_lossy(name.unwrap_or(b"")),
        );
    }
    text
}

fn method(number: u8) -> String {
    let name = METHODS.get(usize::from(number)).unwrap_or(&"");
    format!("{number} {name}").trim_end().to_string()
}

fn lines(register: &Register) -> String {
    let mut text = "Lines\n\n  at  index  kind  unit  code         A      B            Q\n".to_string();
    for (index, line) in register.lines.iter().enumerate() {
        text += &format!(
            "{:>4}  {index:>5}  {:>4}  {:>4}  {:>4}  {:>8}  {:>5}  {:>11}\n",
            line_at(register.sources.len(), index),
            line.kind,
            line.unit,
            line.code,
            line.a,
            line.b,
            line.quantity,
        );
    }
    text
}

/// The entries and amounts of stock cards, each beside what the card is of, and what the amounts program writes.
pub fn cards_listing(bytes: &[u8], names: &[&str]) -> String {
    let mut text = "Cards, in thousandths of their units\n\n".to_string();
    text += "  at  index     received   dispatched      opening      closing       amount  of\n";
    for (index, (card, name)) in bytes.chunks(CARD_LENGTH).map(Card::read).zip(names).enumerate() {
        let [received, dispatched, opening, closing] = card.entries();
        text += &format!(
            "{:>4}  {index:>5}  {received:>11}  {dispatched:>11}  {opening:>11}  {closing:>11}  {:>11}  {name}\n",
            card_at(index),
            card.amount(),
        );
    }
    text + &format!("\nWhat the amounts program writes\n\n{}", String::from_utf8_lossy(&amounts_program(bytes)))
}
