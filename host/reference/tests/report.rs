//! A report's bytes, stated one by one.

use reference::calls::calculate;
use reference::draft::{line, register, source};

#[test]
fn bytes_of_a_report() {
    let flare = [line(1, 2, 0, 1_200_000, 50, 100_000), line(2, 2, 0, 500_000, 50, 100_000)];
    let sources = vec![source(0x0102_0304, 2, 0, &flare), source(7, 6, 5, &[line(30, 1, 0, 0, 0, 1_000_000)])];
    let mut buffer = [0xAA; 140];
    assert_eq!(calculate(&register(2023, sources).bytes(), &mut buffer).length, 136);
    let co2 = [0x80, 0x70, 0x13, 0x1A, 0, 0, 0, 0]; // 437,481,600
    let ch4 = [0x90, 0xD0, 0x03, 0, 0, 0, 0, 0]; // 250,000
    let n2o = [0x40, 0x54, 0x89, 0, 0, 0, 0, 0]; // 9,000,000
    let of_flare = [0x90, 0xCE, 0x72, 0x1A, 0, 0, 0, 0]; // 443,731,600
    let of_acid = [0x80, 0x12, 0xDC, 0x9F, 0, 0, 0, 0]; // 2,682,000,000
    let of_both = [0x10, 0xE1, 0x4E, 0xBA, 0, 0, 0, 0]; // 3,125,731,600
    let expected = [
        &b"GREP"[..],
        &[1, 0, 0xE7, 0x07, 2, 0, 0, 0, 56, 0, 0, 0, 136, 0, 0, 0, 0, 0, 0, 0],
        &[co2, ch4, n2o, of_both].concat(),
        &[7, 0, 0, 0, 6, 0, 0, 0],
        &[[0; 8], [0; 8], n2o, of_acid].concat(),
        &[4, 3, 2, 1, 2, 0, 0, 0],
        &[co2, ch4, [0; 8], of_flare].concat(),
        &[0xAA; 4],
    ];
    assert_eq!(buffer[..], expected.concat());
}
