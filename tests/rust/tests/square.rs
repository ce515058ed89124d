//! A number times itself by the language's own product, then plate_binary32's
//! nearest root: from 2^-63 to below 2^64 the number comes back (#111).
//!
//!     cargo test --release --test square
//!     PLATE_FULL=1 cargo test --release --test square -- --nocapture
//!
//! The first takes 20 million numbers, the second every number of the range.

use plate_tests::calls;
use plate_tests::reference::{NEAREST, ROOT};
use plate_tests::work;

/// The patterns of 2^-63 and 2^64.
const LEAST: u32 = 0x2000_0000;
const LIMIT: u32 = 0x5F80_0000;

const SAMPLE: u64 = 20_000_000;

/// The pattern of the root of the square, with any status.
fn root_of_square(pattern: u32) -> u32 {
    let number = f32::from_bits(pattern);
    let status = pattern.wrapping_mul(0x85EB_CA6B) >> 24;
    calls::binary32(ROOT, NEAREST, status as u8, (number * number).to_bits()) as u32
}

fn comes_back(pattern: u32) {
    let root = root_of_square(pattern);
    assert_eq!(root, pattern, "{pattern:08X} comes back as {root:08X}");
}

#[test]
fn numbers_of_the_range() {
    let numbers = (LIMIT - LEAST) as u64;
    if work::full() {
        work::over("numbers", numbers, |part| {
            part.for_each(|k| comes_back(LEAST + k as u32));
            0
        });
    } else {
        work::over("numbers", SAMPLE, |part| {
            part.for_each(|k| comes_back(LEAST + (k * 0x9E37_79B1 % numbers) as u32));
            0
        });
    }
}

/// Every significand under the least and under the greatest exponent.
#[test]
fn both_ends_of_the_range() {
    work::over("ends", 1 << 23, |part| {
        for k in part {
            comes_back(LEAST + k as u32);
            comes_back(LIMIT - 1 - k as u32);
        }
        0
    });
}

/// Below 2^-63 the square is subnormal, and some numbers are lost.
#[test]
fn below_the_range() {
    let lost = |pattern: &u32| root_of_square(*pattern) != *pattern;
    let mut below = (LEAST - 1_048_576..LEAST).rev();
    assert_eq!(below.clone().filter(lost).count(), 32_768);
    assert_eq!(below.find(lost), Some(0x1FFF_F000));
    assert_eq!(root_of_square(0x1FFF_F000), 0x1FFF_EFFF);
}

/// The square of 2^64 is infinity, and so is its root.
#[test]
fn above_the_range() {
    assert_eq!(root_of_square(LIMIT), 0x7F80_0000);
    assert_eq!(root_of_square(LIMIT - 1), LIMIT - 1);
}
