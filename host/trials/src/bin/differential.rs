//! Compares the proved library with the reference.
//!
//!     cargo run --release --bin differential [SEED [CALLS]]      300,000 calls of seed 1 where nothing else is said
//!     differential exact SEED CALLS                              each alone in its piece of the heap, for valgrind
//!
//! A hundredth as many registers are dealt out for the third demand. What differs is printed with seed and input.

use std::process::ExitCode;

use reference::answers::LAST_REFUSAL;
use trials::compared::generated;
use trials::demand3::dealings;
use trials::lent::Around;
use trials::sides::proved;

fn main() -> ExitCode {
    let words: Vec<String> = std::env::args().skip(1).collect();
    let words: Vec<&str> = words.iter().map(String::as_str).collect();
    let tried = match words[..] {
        [] => tried("1", "300000", Around::Guards),
        [seed] => tried(seed, "300000", Around::Guards),
        ["exact", seed, calls] => tried(seed, calls, Around::Nothing),
        [seed, calls] => tried(seed, calls, Around::Guards),
        _ => Err("differential [exact] [SEED [CALLS]]".to_string()),
    };
    match tried {
        Ok(()) => ExitCode::SUCCESS,
        Err(how) => {
            eprintln!("{how}");
            ExitCode::FAILURE
        }
    }
}

fn tried(seed: &str, calls: &str, around: Around) -> Result<(), String> {
    let (seed, calls) = (number(seed)?, number(calls)?);
    let counts = generated(proved, seed, calls, around)?;
    for (answer, count) in &counts {
        println!("{answer:>7} {count:>9}");
    }
    if let Some(missing) = (0..=LAST_REFUSAL).find(|number| !counts.contains_key(&format!("{number:>2}"))) {
        return Err(format!("no call was answered with {missing}"));
    }
    dealings(proved, seed, calls / 100)?;
    println!("{calls} calls and {} dealings of seed {seed}: no difference", calls / 100);
    Ok(())
}

fn number(word: &str) -> Result<u64, String> {
    word.parse().map_err(|_| format!("{word} is no number"))
}
