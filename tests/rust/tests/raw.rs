//! plate_raw against the steps of document 01, with the M of #105, in plain Rust:
//! cargo test --release --test raw

use plate_tests::calls::raw as call;
use plate_tests::chance::Chance;
use plate_tests::reference::raw;
use plate_tests::{pack, vectors, work};

const ACCEPTED: [(u8, u8); 5] = [(1, 0), (2, 0), (2, 1), (3, 0), (3, 1)];

fn check(operation: u8, significand: u32, parity: u8) {
    let (refusal, answer) = raw(operation, significand, parity);
    let given = call(operation, significand, parity);
    assert_eq!(given, pack(refusal, 0, answer), "raw {operation} {significand} {parity}");
}

/// All accepted calls: 5 times 2^23.
#[test]
fn every_accepted_call() {
    work::over("raw", 1 << 23, |part| {
        for k in part {
            for (operation, parity) in ACCEPTED {
                check(operation, (1 << 23) + k as u32, parity);
            }
        }
        0
    });
}

/// Under 12, 7 and 7 units of 2^-28 from the exact value, all accepted calls.
#[test]
fn distance() {
    work::over("distance", 1 << 23, |part| {
        for k in part {
            let y = (1 << 23) + k as u128;
            for (operation, parity) in ACCEPTED {
                let g = call(operation, y as u32, parity) as u128;
                let near = match operation {
                    1 => (g * y).abs_diff(1 << 51) < 12 * y,
                    2 => {
                        let square = y << (33 + parity);
                        (g - 7).pow(2) < square && square < (g + 7).pow(2)
                    }
                    _ => {
                        let square = 1 << (79 - parity);
                        (g - 7).pow(2) * y < square && square < (g + 7).pow(2) * y
                    }
                };
                assert!(near, "raw {operation} {y} {parity} gives {g}");
            }
        }
        0
    });
}

/// Every operation and every parity with significands at the edges.
#[test]
fn refusals() {
    for operation in 0..=255 {
        for parity in 0..=255 {
            for significand in [
                0, 1, 8_388_607, 8_388_608, 8_388_609, 12_582_912, 16_777_214, 16_777_215,
                16_777_216, 25_165_824, 1 << 31, u32::MAX,
            ] {
                check(operation, significand, parity);
            }
        }
    }
    let mut chance = Chance(1);
    for _ in 0..1_000_000 {
        let word = chance.next();
        check((word >> 32) as u8 % 8, word as u32, (word >> 40) as u8 % 4);
    }
}

/// The file that the reference program in Python made, against both.
#[test]
fn vector_file() {
    for (given, expected) in vectors::calls("call_vectors", "r") {
        let number = |text: &str| text.parse::<u32>().unwrap();
        let [operation, significand, parity] = [0, 1, 2].map(|k| number(&given[k]));
        let (refusal, answer) = (number(&expected[0]) as u8, number(&expected[1]));
        assert_eq!(raw(operation as u8, significand, parity as u8), (refusal, answer), "{given:?}");
        check(operation as u8, significand, parity as u8);
    }
}
