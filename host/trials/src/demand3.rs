//! The third demand, by the calls of a side: a register dealt out, calculated and combined in any order and grouping gives
//! the whole register's report, and so does a source removed and combined again.

use reference::call::Entry;
use reference::generator::{dealing, Dealing};
use reference::layout::MOST_REPORT_LENGTH;

use crate::sides::Side;

/// Tries the dealings of a seed.
pub fn dealings(side: Side, seed: u64, count: u64) -> Result<(), String> {
    for index in 0..count {
        let dealing = dealing(seed, index);
        let right = combines(side, &dealing) && comes_back(side, &dealing);
        if !right {
            let register: String = dealing.whole.iter().map(|byte| format!("{byte:02x}")).collect();
            return Err(format!("seed {seed}, dealing {index}: another report than that of register {register}"));
        }
    }
    Ok(())
}

/// What a call writes, if it is accepted.
fn written(side: Side, entry: Entry, first: &[u8], second: &[u8], number: u32) -> Vec<u8> {
    let mut buffer = vec![0; MOST_REPORT_LENGTH];
    let [refusal, _, length] = side(entry, first, second, number, &mut buffer);
    buffer.truncate(if refusal == 0 { length as usize } else { 0 });
    buffer
}

fn calculated(side: Side, register: &[u8]) -> Vec<u8> {
    written(side, Entry::Calculate, register, &[], 0)
}

fn combined(side: Side, first: &[u8], second: &[u8]) -> Vec<u8> {
    written(side, Entry::Combine, first, second, 0)
}

fn combines(side: Side, dealing: &Dealing) -> bool {
    let whole = calculated(side, &dealing.whole);
    let reports = dealing.parts.iter().map(|part| calculated(side, part)).collect();
    !whole.is_empty() && dealing.combined(reports, |first, second| combined(side, first, second)) == whole
}

fn comes_back(side: Side, dealing: &Dealing) -> bool {
    let Some((number, register)) = &dealing.alone else { return true };
    let whole = calculated(side, &dealing.whole);
    let rest = written(side, Entry::Remove, &whole, &[], *number);
    let alone = calculated(side, register);
    combined(side, &rest, &alone) == whole && combined(side, &alone, &rest) == whole
}
