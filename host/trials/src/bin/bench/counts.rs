//! Instructions of a call, counted by callgrind over this very program.

use std::process::Command;

use crate::rows::Row;
use crate::SIDES;

/// As many calls as are counted of each row.
const CALLS: usize = 16;

/// What callgrind watches: the row's inputs made, and each call of them so many times.
pub fn make_calls(side: &str, row: &str, times: usize) {
    let (_, answer) = SIDES.iter().find(|(name, _)| *name == side).expect("a side");
    for call in Row::named(row).expect("a row").pool(CALLS) {
        let mut buffer = vec![call.fill; call.room];
        for _ in 0..times {
            std::hint::black_box(answer(call.entry, &call.first, &call.second, call.number, &mut buffer));
        }
    }
}

/// Instructions a call of the proved side and of Rust's, and their ratio; or a word where they cannot be counted.
pub fn both(row: &Row) -> String {
    match SIDES.map(|(side, _)| counted(side, row)) {
        [Some(proved), Some(rust)] => format!("{proved:.0} | {rust:.0} | {:.2}", proved / rust),
        _ => "not counted | not counted | -".to_string(),
    }
}

/// What a second call of each input adds: the making of the inputs falls out.
fn counted(side: &str, row: &Row) -> Option<f64> {
    Some((total(side, row, 2)? - total(side, row, 1)?) / CALLS as f64)
}

fn total(side: &str, row: &Row, times: usize) -> Option<f64> {
    let program = std::env::current_exe().ok()?;
    let output = Command::new("valgrind")
        .args(["--tool=callgrind", "--callgrind-out-file=/dev/null"])
        .arg(program)
        .args(["calls", side, row.name, &times.to_string()])
        .output()
        .ok()?;
    let said = String::from_utf8(output.stderr).ok()?;
    let (_, collected) = said.split_once("Collected : ")?;
    collected.lines().next()?.trim().parse().ok()
}
