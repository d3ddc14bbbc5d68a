//! Times the proved calls beside the Rust side's, and counts the instructions of both.
//!
//!     cargo run --release --bin bench                        the table
//!     cargo run --release --bin bench -- NAME                instructions alone, of the rows whose name begins so
//!     cargo run --release --bin bench -- file ROW COUNT      calls of a row as a file of cases, for a program in C
//!     cargo run --release --bin bench -- calls SIDE ROW TIMES     each call of a row so often, for a profiler to watch
//!
//! Both sides go over the same pool of inputs in turns, and the median of the turns' ratios counts, so that what else
//! the machine does weighs little. Instructions are callgrind's, and are left out where there is no valgrind.

mod counts;
mod rows;
mod times;

use rows::{Row, ROWS};
use trials::sides::{proved, rival, Side};

const SIDES: [(&str, Side); 2] = [("proved", proved), ("rust", rival)];

fn main() {
    let words: Vec<String> = std::env::args().skip(1).collect();
    let words: Vec<&str> = words.iter().map(String::as_str).collect();
    match words[..] {
        [] => table(),
        ["calls", side, row, times] => counts::make_calls(side, row, times.parse().expect("a number")),
        ["file", row, count] => rows::write_file(row, count.parse().expect("a number")),
        [name] => ROWS.iter().filter(|row| row.name.starts_with(name)).for_each(count),
        _ => eprintln!("bench [NAME | file ROW COUNT | calls SIDE ROW TIMES]"),
    }
}

fn table() {
    println!("| Call | proved, ns | Rust, ns | ratio | proved, ns each | proved, instr. | Rust, instr. | ratio |");
    println!("|---|---|---|---|---|---|---|---|");
    for row in &ROWS {
        let times = times::measured(row);
        print!("| {} | {:.0} | {:.0} | {:.2} ", row.name, times.proved, times.rust, times.ratio);
        println!("| {:.1} | {} |", times.proved / row.sources as f64, counts::both(row));
    }
}

fn count(row: &Row) {
    println!("{:>22}: {}", row.name, counts::both(row));
}
