//! The commands that write files: a file that holds its bytes already is left alone, with its time.

use std::fs;
use std::path::{Path, PathBuf};
use std::process::Command;
use std::time::SystemTime;

fn run(command: &str, dir: &Path) {
    let status = Command::new(env!("CARGO_BIN_EXE_reference")).arg(command).arg(dir).status();
    assert!(status.expect("the reference can be run").success(), "{command}");
}

/// A folder, and everything below it.
fn all_below(dir: &Path) -> Vec<PathBuf> {
    let mut found = vec![dir.to_path_buf()];
    for entry in fs::read_dir(dir).unwrap() {
        let path = entry.unwrap().path();
        found.extend(if path.is_dir() { all_below(&path) } else { vec![path] });
    }
    found
}

fn is_of_1970(path: &Path) -> bool {
    fs::metadata(path).and_then(|found| found.modified()).unwrap() == SystemTime::UNIX_EPOCH
}

#[test]
fn a_file_is_written_only_where_it_differs() {
    for command in ["cases", "examples", "samples"] {
        let dir = Path::new(env!("CARGO_TARGET_TMPDIR")).join(command);
        fs::remove_dir_all(&dir).ok();
        fs::create_dir_all(&dir).unwrap();
        run(command, &dir);
        let made = all_below(&dir);
        for path in &made {
            fs::File::open(path).and_then(|opened| opened.set_modified(SystemTime::UNIX_EPOCH)).unwrap();
        }
        run(command, &dir);
        assert!(made.iter().all(|path| is_of_1970(path)), "{command}");

        let files: Vec<&PathBuf> = made.iter().filter(|path| path.is_file()).collect();
        let right: Vec<Vec<u8>> = files.iter().map(|file| fs::read(file).unwrap()).collect();
        for file in &files {
            fs::write(file, b"other bytes").unwrap();
        }
        run(command, &dir);
        assert!(files.iter().zip(right).all(|(file, bytes)| fs::read(file).unwrap() == bytes), "{command}");
    }
}
