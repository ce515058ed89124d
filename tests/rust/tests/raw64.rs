//! plate_raw64 and plate_fill_tables against the steps of document 01 over k, as #106 has
//! them, in plain Rust: cargo test --release --test raw64

use plate_tests::calls::{fill_tables, raw64 as call};
use plate_tests::chance::Chance;
use plate_tests::reference::{self, place, raw64, tables, INVERSE_ROOT, RECIPROCAL, ROOT, TABLES};
use plate_tests::slices::{Slices, LENGTHS};
use plate_tests::wide::{power, times};
use plate_tests::{vectors, work};

const ACCEPTED: [(u8, u8); 5] = [(1, 0), (2, 0), (2, 1), (3, 0), (3, 1)];
const LEAST: u64 = 1 << 52;
const MOST: u64 = (1 << 53) - 1;

/// A hundred in each of the 32,768 intervals with the same i.
const SAMPLE: u64 = 100 << 15;

/// How many numbers stand on each side of a slice that is to be filled.
const GUARD: usize = 3;

/// The interval's ends and beside them, where d turns from below 0 to above, where a digit
/// of a turns, and any.
fn significand(k: u64) -> u64 {
    let mut chance = Chance(k);
    let (i, kind) = (32_768 + k % 32_768, k / 32_768 % 20);
    let r = (1 << 31) / i;
    let (low, high) = (i << 37, (i << 37) + (1 << 37) - 1);
    let turn = |a: i128| (((1i128 << 68) + 256 * a) / r as i128) as u64;
    let near = chance.range(-2, 2);
    let y = match kind {
        0..=2 => low + kind,
        3..=5 => high - (kind - 3),
        6..=8 => turn(0) + kind - 7,
        9..=11 => turn(chance.range(-32_767, 32_767) as i128 * (1 << 30)).wrapping_add_signed(near),
        12..=13 => turn(chance.range(-(1 << 30), 1 << 30) as i128 * (1 << 15)).wrapping_add_signed(near),
        14 => turn(chance.range(-(1 << 15), 1 << 15) as i128).wrapping_add_signed(near),
        _ => chance.range(low as i64, high as i64) as u64,
    };
    y.clamp(low, high)
}

/// Asks about accepted calls of every kind, each interval with each of its entries.
fn accepted(name: &str, check: impl Fn(u8, u64, u8) + Sync) {
    work::over(name, SAMPLE, |part| {
        for k in part {
            for (operation, parity) in ACCEPTED {
                check(operation, significand(k), parity);
            }
        }
        0
    });
}

#[test]
fn against_the_steps() {
    accepted("raw64", |operation, y, parity| {
        let given = call(operation, y, parity, tables());
        assert_eq!(given, raw64(operation, y, parity, tables()), "raw64 {operation} {y} {parity}");
    });
}

/// Under 12, 7 and 7 units of 2^-60 from the exact value.
#[test]
fn distance() {
    accepted("distance", |operation, y, parity| {
        let (refusal, answer) = call(operation, y, parity, tables());
        let g = answer as u128;
        let near = match operation {
            RECIPROCAL => (g * y as u128).abs_diff(1 << 112) < 12 * y as u128,
            ROOT => {
                let square = (y as u128) << (68 + parity);
                (g - 7).pow(2) < square && square < (g + 7).pow(2)
            }
            _ => {
                let square = power(172 - parity as u32);
                times((g - 7).pow(2), y) < square && square < times((g + 7).pow(2), y)
            }
        };
        assert!(refusal == 0 && near, "raw64 {operation} {y} {parity} gives {g}");
    });
}

/// The reciprocal of 1.5, with no slice at all, and both roots of 2.
#[test]
fn rows() {
    assert_eq!(call(RECIPROCAL, 3 << 51, 0, &[]), (0, 768_614_336_404_564_650));
    assert_eq!(call(ROOT, LEAST, 1, tables()), (0, 1_630_477_228_166_597_777));
    assert_eq!(call(INVERSE_ROOT, LEAST, 1, tables()), (0, 815_238_614_083_298_888));
}

/// Any numbers, so many as the length and GUARD on each side.
fn guarded(chance: &mut Chance, length: usize) -> Vec<u64> {
    (0..length + 2 * GUARD).map(|_| chance.next()).collect()
}

/// Every entry by its rule: the exact M lies above it less a half and below it plus a half.
/// What stood in the slice has no influence, and what stands beside it is kept.
#[test]
fn filling() {
    let mut chance = Chance(20);
    let mut numbers = guarded(&mut chance, TABLES);
    let before = numbers.clone();
    for _ in 0..2 {
        // The second time it is full already.
        assert_eq!(fill_tables(&mut numbers[GUARD..GUARD + TABLES]), 0);
        assert_eq!(numbers[..GUARD], before[..GUARD]);
        assert_eq!(numbers[GUARD + TABLES..], before[GUARD + TABLES..]);
        let filled = &numbers[GUARD..GUARD + TABLES];
        for (n, &w) in filled.iter().enumerate() {
            let (i, p) = (32_768 + n as u64 % 32_768, (n / 32_768 % 2) as u32);
            let r = (1 << 31) / i;
            assert!((1..1 << 62).contains(&w), "number {n}: {w}");
            let [below, above] = [2 * w - 1, 2 * w + 1].map(|twice| (twice as u128).pow(2));
            let nearest = if n < TABLES / 2 {
                times(below, r) < power(138 + p) && power(138 + p) < times(above, r)
            } else {
                // Both sides divided by 2^(16 + p).
                let square = (r as u128) << (106 - p);
                below < square && square < above
            };
            assert!(nearest, "number {n}: {w}");
        }
        assert!(filled == tables(), "the reference's tables differ");
    }
}

#[test]
fn filling_refused() {
    let mut chance = Chance(21);
    let other = [2, 4, 32_768, 65_536, 98_304, 2 * TABLES, 8 * TABLES];
    for length in LENGTHS.into_iter().chain(other).filter(|&length| length != TABLES) {
        let mut numbers = guarded(&mut chance, length);
        let before = numbers.clone();
        assert_eq!(fill_tables(&mut numbers[GUARD..GUARD + length]), 15, "{length} numbers");
        assert!(numbers == before, "{length} numbers were written");
        let mut expected = before.clone();
        assert_eq!(reference::fill_tables(&mut expected[GUARD..GUARD + length]), 15);
    }
}

/// The number at the place used decides, and no other.
#[test]
fn wrong_entries() {
    let mut slices = Slices::new(22);
    let mut chance = Chance(23);
    for n in 0..TABLES {
        let (operation, parity) = ACCEPTED[1 + n / 32_768];
        let any = chance.range(0, (1 << 37) - 1) as u64;
        let y = ((32_768 + n as u64 % 32_768) << 37) + chance.pick(&[0, (1 << 37) - 1, any]);
        assert_eq!(place(operation, y, parity), n);
        let expected = raw64(operation, y, parity, tables());
        let library = |slice: &[u64]| call(operation, y, parity, slice);
        slices.check(n, library, expected, (16, 0));
    }
    assert!(slices.kept());
}

/// Every question against the ones before and behind it.
#[test]
fn refusals() {
    let slices = Slices::new(24);
    let mut refused = [0; 17];
    let mut check = |operation: u8, significand: u64, parity: u8| {
        for slice in slices.of_all_lengths() {
            let expected = raw64(operation, significand, parity, slice);
            let given = call(operation, significand, parity, slice);
            assert_eq!(given, expected, "raw64 {operation} {significand} {parity}, {} numbers", slice.len());
            refused[expected.0 as usize] += 1;
        }
    };
    let edges = [
        0, 1, 1 << 23, LEAST >> 1, LEAST - 1, LEAST, LEAST + 1, 3 << 51, MOST - 1, MOST, MOST + 1, 3 << 52,
        1 << 63, u64::MAX,
    ];
    for operation in 0..=255 {
        for parity in [0, 1, 2, 3, 128, 255] {
            edges.iter().for_each(|&significand| check(operation, significand, parity));
        }
    }
    for parity in 0..=255 {
        for operation in 0..5 {
            edges[4..12].iter().for_each(|&significand| check(operation, significand, parity));
        }
    }
    let mut chance = Chance(25);
    for _ in 0..100_000 {
        let significand = chance.next() >> chance.range(8, 13);
        check(chance.range(0, 4) as u8, significand, chance.range(0, 2) as u8);
    }
    println!("calls by refusal: {refused:?}");
    for (number, count) in refused.into_iter().enumerate() {
        assert_eq!(count > 0, [0, 1, 3, 4, 15, 16].contains(&number), "refusal {number}");
    }
    assert!(slices.kept());
}

/// The file that the reference program in Python made, against both.
#[test]
fn vector_file() {
    for (given, expected) in vectors::calls("binary64_vectors", "t") {
        let length: usize = given[0].parse().unwrap();
        for fill in [fill_tables, reference::fill_tables] {
            let mut numbers: Vec<u64> = (0..TABLES as u64 + 1).map(|j| 7 * j + 3).collect();
            let refusal = fill(&mut numbers[..length]);
            let got = [refusal.to_string(), vectors::digest(&numbers).to_string()];
            assert_eq!(got, *expected, "{given:?}");
        }
    }
    let mut lent = vectors::Lent::new();
    for (given, expected) in vectors::calls("binary64_vectors", "r") {
        let [operation, parity] = [3, 5].map(|k: usize| given[k].parse().unwrap());
        let hex = |text: &str| u64::from_str_radix(text, 16).unwrap();
        let expected = (expected[0].parse().unwrap(), hex(&expected[1]));
        for call in [call, raw64] {
            let got = lent.with(&given, |slice| call(operation, hex(&given[4]), parity, slice));
            assert_eq!(got, expected, "{given:?}");
        }
    }
    assert!(lent.kept());
}
