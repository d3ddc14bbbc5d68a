//! Commands over the reference.

use std::io::{self, Read, Write};
use std::path::Path;
use std::process::ExitCode;

use reference::cases::Group;
use reference::{calls, cases, examples, generator, listing, samples};

const USAGE: &str = "\
reference report < REGISTER     what the report program writes
reference amounts < CARDS       what the amounts program writes
reference list < REGISTER       a register's fields, and what the report program writes
reference counts SEED COUNT     how many of so many generated calls gave each answer
reference cases DIR             data/calls, stdout and calls.txt: chosen calls, what they answer, and a listing
reference cases DIR SEED COUNT  the same of generated calls
reference examples DIR          the examples with their listings
reference samples DIR           the files on which the front door is tried
";

fn main() -> ExitCode {
    let words: Vec<String> = std::env::args().skip(1).collect();
    let words: Vec<&str> = words.iter().map(String::as_str).collect();
    let done = match words[..] {
        ["report"] => write_out(calls::report_program),
        ["amounts"] => write_out(calls::amounts_program),
        ["list"] => list(),
        ["counts", seed, count] => counts(seed, count),
        ["cases", dir] => write_cases(Path::new(dir), &cases::chosen()),
        ["cases", dir, seed, count] => write_generated(Path::new(dir), seed, count),
        ["examples", dir] => write_examples(Path::new(dir)),
        ["samples", dir] => write_samples(Path::new(dir)),
        _ => {
            eprint!("{USAGE}");
            return ExitCode::from(2);
        }
    };
    match done {
        Ok(()) => ExitCode::SUCCESS,
        Err(error) => {
            eprintln!("reference: {error}");
            ExitCode::from(2)
        }
    }
}

fn input() -> io::Result<Vec<u8>> {
    let mut input = vec![];
    io::stdin().read_to_end(&mut input)?;
    Ok(input)
}

/// What a program writes of standard input.
fn write_out(program: fn(&[u8]) -> Vec<u8>) -> io::Result<()> {
    io::stdout().write_all(&program(&input()?))
}

fn list() -> io::Result<()> {
    match listing::listing(&input()?) {
        Ok(listing) => print!("{listing}"),
        Err(refusal) => io::stdout().write_all(&calls::refused_line(refusal.number, refusal.place))?,
    }
    Ok(())
}

fn number(word: &str) -> io::Result<u64> {
    word.parse().map_err(|_| io::Error::other(format!("{word} is no number")))
}

fn counts(seed: &str, count: &str) -> io::Result<()> {
    for (answer, count) in generator::counts(number(seed)?, number(count)?) {
        println!("{answer:>7} {count:>9}");
    }
    Ok(())
}

fn write_generated(dir: &Path, seed: &str, count: &str) -> io::Result<()> {
    write_cases(dir, &cases::generated(number(seed)?, number(count)?))
}

/// Writes a file only where its bytes differ, since what was built of a file that is younger is built again.
fn write(path: &Path, bytes: &[u8]) -> io::Result<()> {
    match std::fs::read(path) {
        Ok(stored) if stored == bytes => Ok(()),
        _ => std::fs::write(path, bytes),
    }
}

fn write_cases(dir: &Path, groups: &[Group]) -> io::Result<()> {
    std::fs::create_dir_all(dir.join("data"))?;
    write(&dir.join("data/calls"), &cases::calls(groups))?;
    write(&dir.join("stdout"), &cases::output(groups))?;
    write(&dir.join("calls.txt"), cases::listing(groups).as_bytes())
}

fn write_examples(dir: &Path) -> io::Result<()> {
    for (name, register) in examples::all() {
        let listing = listing::listing(&register).expect("an example's header is right");
        write(&dir.join(format!("{name}.register")), &register)?;
        write(&dir.join(format!("{name}.txt")), listing.as_bytes())?;
    }
    let listing = listing::cards_listing(&examples::stores(), &examples::STORES.map(|(name, _)| name));
    write(&dir.join("stores.cards"), &examples::stores())?;
    write(&dir.join("stores.txt"), listing.as_bytes())
}

fn write_samples(dir: &Path) -> io::Result<()> {
    samples::all().iter().try_for_each(|(name, bytes)| write(&dir.join(name), bytes))
}
