//! The files in `examples/` are those that the command writes, and hold what they are for.

use std::collections::BTreeSet;
use std::path::PathBuf;

use reference::cards::amounts_of;
use reference::examples::{all, stores, STORES};
use reference::listing::{cards_listing, listing};
use reference::methods::TABLE;
use reference::register::Register;

fn file(name: &str) -> Vec<u8> {
    let path: PathBuf = [env!("CARGO_MANIFEST_DIR"), "../../examples", name].iter().collect();
    std::fs::read(&path).unwrap_or_else(|error| panic!("{}: {error}", path.display()))
}

#[test]
fn files_are_those_written() {
    for (name, register) in all() {
        assert_eq!(file(&format!("{name}.register")), register, "{name}");
        let listing = listing(&register).expect("an example's header is right");
        assert_eq!(file(&format!("{name}.txt")), listing.as_bytes(), "{name}");
    }
    assert_eq!(file("stores.cards"), stores());
    assert_eq!(file("stores.txt"), cards_listing(&stores(), &STORES.map(|(name, _)| name)).as_bytes());
}

#[test]
fn every_method_has_every_parameter_and_kind() {
    let (_, bytes) = &all()[1];
    let register = Register::read(bytes).expect("the example is right");
    let mut held = BTreeSet::new();
    for source in &register.sources {
        for line in register.lines_of(source) {
            held.insert((source.method, source.parameter, line.kind));
        }
    }
    for row in &TABLE {
        for parameter in row.parameters {
            for kind in row.kinds {
                assert!(held.contains(&(row.method, *parameter, *kind)), "{} {parameter} {kind}", row.method);
            }
        }
    }
}

/// By hand: 5,412,350 - 412,350; 1,240,000 - 35,000 + 310,000 - 515,000; 1,212,500,000 + 86,000,000 - 98,500,000;
/// 2,150,000 + 380,500 - 412,750; 120,000 - 260,000 + 415,000 - 95,000; 64,200 - 18,700 + 120,300 - 165,800.
#[test]
fn amounts_of_the_stores() {
    let amounts = amounts_of(&stores()).expect("the example is right");
    assert_eq!(amounts, [5_000_000, 1_000_000, 1_200_000_000, 2_117_750, 180_000, 0]);
}

/// Where a store's name says of which line its amount is the quantity, that line has it, and in the store's unit.
#[test]
fn amounts_are_quantities_of_every_method() {
    let (_, bytes) = &all()[1];
    let register = Register::read(bytes).expect("the example is right");
    let mut found = 0;
    for (name, card) in STORES {
        let Some((of, line)) = name.split_once("; Q of line ") else { continue };
        let line = line.strip_suffix(" of every-method").expect("a line of that register");
        let line = register.lines[line.parse::<usize>().expect("its index")];
        let unit = [(1, ", t"), (2, ", thousand m3")].iter().find(|(_, unit)| of.ends_with(unit));
        assert_eq!(
            (i128::from(line.quantity), Some(line.unit)),
            (card.amount(), unit.map(|(unit, _)| *unit)),
            "{name}"
        );
        found += 1;
    }
    assert_eq!(found, 3);
}
