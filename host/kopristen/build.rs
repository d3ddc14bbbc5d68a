//! Links the proved library: the one in the folder that `KOPRISTEN_LIB` names, or else one that is made here and now.

use std::ffi::OsString;
use std::path::PathBuf;
use std::process::Command;

const LIBRARY: &str = "libkopristen.a";

fn main() {
    println!("cargo:rerun-if-env-changed=KOPRISTEN_LIB");
    let folder = std::env::var_os("KOPRISTEN_LIB").map_or_else(made, named);
    println!("cargo:rustc-link-search=native={}", folder.display());
}

/// Somebody else makes the library of this folder, so the file itself is watched.
fn named(folder: OsString) -> PathBuf {
    let folder = PathBuf::from(folder);
    println!("cargo:rerun-if-changed={}", folder.join(LIBRARY).display());
    folder
}

/// The folder with a copy of the library that `host/library` makes: each run writes that file anew, so its sources are
/// watched, of every crate, since that costs less than a list to keep. What rt keeps beside them, in `out`, is not.
fn made() -> PathBuf {
    let host = concat!(env!("CARGO_MANIFEST_DIR"), "/..");
    for source in ["../crates.txt", "library"] {
        println!("cargo:rerun-if-changed={host}/{source}");
    }
    for folder in std::fs::read_dir(format!("{host}/../crates")).expect("crates can be read") {
        let folder = folder.expect("crates can be read").path();
        for part in ["src", "specs", "proofs"].map(|part| folder.join(part)).iter().filter(|part| part.exists()) {
            println!("cargo:rerun-if-changed={}", part.display());
        }
    }
    let made = Command::new(format!("{host}/library")).output().expect("host/library can be run");
    assert!(made.status.success(), "{}", String::from_utf8_lossy(&made.stderr));
    let folder = PathBuf::from(String::from_utf8_lossy(&made.stdout).trim());
    let copy = PathBuf::from(std::env::var_os("OUT_DIR").expect("cargo names a folder"));
    std::fs::copy(folder.join(LIBRARY), copy.join(LIBRARY)).expect("the library can be copied");
    copy
}
