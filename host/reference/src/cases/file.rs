//! Cases as a file that a program reads, the output that is expected of it, and a listing for people.
//!
//! The file is a record for each call and nothing else. A record is a header of 64 bytes, then the first input, then
//! the second:
//!
//! | Bytes | Holds |
//! |---|---|
//! | 0 | the entry point: 1 calculate, 2 combine, 3 remove, 4 check, 5 text, 6 name, 7 name of two, 8 amounts |
//! | 1 | the byte that fills the buffer |
//! | 2-3 | zero |
//! | 4-7 | number (remove, name, name of two), else 0 |
//! | 8-11 | room: length of the buffer; 0 for entry points without one |
//! | 12-15 | length of the first input |
//! | 16-19 | length of the second input; 0 for entry points with one |
//! | 20-63 | name, filled up with spaces |
//!
//! Room and inputs are at most one byte longer than the longest register.
//!
//! Output for a call is a line: the name's 44 bytes as they stand, then for each number of the answer a space and the
//! number in decimals. Then what the buffer holds after the call, in lines of eight bytes, two hexadecimal digits a
//! byte, the last line shorter where the room is no multiple of eight. Of a text that was accepted the first bytes,
//! as many as its length, stand as they are, and only those behind them in hexadecimal lines.

use super::{Case, Group};
use crate::bytes::append;
use crate::call::{Entry, Reply};

const NAME_BYTES: usize = 44;
const BYTES_A_LINE: usize = 8;

/// The file of calls.
pub fn calls(groups: &[Group]) -> Vec<u8> {
    groups.iter().flat_map(|group| &group.cases).flat_map(record).collect()
}

/// What a program over the entry points writes when it answers the file of calls.
pub fn output(groups: &[Group]) -> Vec<u8> {
    groups.iter().flat_map(|group| &group.cases).flat_map(reply_text).collect()
}

/// The groups with their purpose, and a line for each call.
pub fn listing(groups: &[Group]) -> String {
    let mut listing = String::new();
    for group in groups {
        listing += &format!("\n{}\n\n", group.purpose);
        for case in &group.cases {
            listing += &listing_line(case);
        }
    }
    listing.trim_start().to_string()
}

fn record(case: &Case) -> Vec<u8> {
    let call = &case.call;
    let mut record = vec![call.entry as u8, call.fill, 0, 0];
    for field in [call.number as usize, call.room, call.first.len(), call.second.len()] {
        append(&mut record, 4, field as u64);
    }
    record.extend(padded_name(case).bytes());
    record.extend(&call.first);
    record.extend(&call.second);
    record
}

fn padded_name(case: &Case) -> String {
    format!("{:<NAME_BYTES$}", case.name)
}

fn reply_text(case: &Case) -> Vec<u8> {
    let reply = case.call.reply();
    let numbers = reply.answer.iter().map(|number| format!(" {number}"));
    let mut text = padded_name(case) + &numbers.collect::<String>() + "\n";
    let plain = plain_length(case.call.entry, &reply);
    text += &String::from_utf8_lossy(&reply.buffer[..plain]);
    for bytes in reply.buffer[plain..].chunks(BYTES_A_LINE) {
        let digits = bytes.iter().map(|byte| format!("{byte:02x}"));
        text += &(digits.collect::<String>() + "\n");
    }
    text.into_bytes()
}

/// How much of the buffer is text: as much as the answer's length says, and nothing where it is a refusal.
fn plain_length(entry: Entry, reply: &Reply) -> usize {
    match entry {
        Entry::Text => reply.answer[2] as usize,
        _ => 0,
    }
}

fn listing_line(case: &Case) -> String {
    let call = &case.call;
    let answer: Vec<String> = case.answer.iter().map(u64::to_string).collect();
    let mut lent = format!("{} bytes", call.first.len());
    if matches!(call.entry, Entry::Combine | Entry::NameOfTwo) {
        lent += &format!(" and {}", call.second.len());
    }
    match call.entry {
        Entry::Remove | Entry::Name | Entry::NameOfTwo => lent += &format!(", number {}", call.number),
        _ => {}
    }
    match call.entry {
        Entry::Check | Entry::Name | Entry::NameOfTwo => {}
        _ => lent += &format!(", room {}", call.room),
    }
    let entry = format!("{:?}", call.entry);
    format!("  {} {entry:<9} {lent}: {}\n", padded_name(case), answer.join(" "))
}
