//! The raw calls of 24 and of 53 bits beside the same steps in Rust.

use std::fmt::{Debug, Display};
use std::hint::black_box;

use plate_tests::chance::Chance;
use plate_tests::reference::TABLES;
use plate_tests::{calls, pack};

use crate::timing::{compare, side, Side, ROUNDS};

/// The whole number nearest to the root of n / d, never half-way, n being 2^k times a
/// number and d below 2^64: twice the root, floored, then half of it, rounded.
const fn nearest_root(n: u128, k: u32, d: u128) -> u64 {
    let square = ((n / d) << (k + 2)) + ((n % d) << (k + 2)) / d;
    (square.isqrt() as u64 + 1) / 2
}

/// M by the rules over k.
const fn multiplier(k: u32, operation: u8, p: u32, r: u128) -> u64 {
    match operation {
        1 => (r << (3 * k - 1)) as u64,
        2 => nearest_root(1 << (7 * k), 2 * k + 1 + p, r),
        _ => nearest_root(r << (7 * k - 1 - p), 0, 1),
    }
}

const fn table(operation: u8, p: u32) -> [u64; 128] {
    let mut table = [0; 128];
    let mut k = 0;
    while k < 128 {
        table[k] = multiplier(7, operation, p, 32_768 / (128 + k as u128));
        k += 1;
    }
    table
}

static RECIPROCAL: [u64; 128] = table(1, 0);
static ROOT: [[u64; 128]; 2] = [table(2, 0), table(2, 1)];
static INVERSE_ROOT: [[u64; 128]; 2] = [table(3, 0), table(3, 1)];

/// Fills the four tables of 53 bits.
pub fn whole_roots(tables: &mut [u64]) {
    for (n, entry) in tables.iter_mut().enumerate() {
        let (table, i) = (n / 32_768, 32_768 + n as u128 % 32_768);
        *entry = multiplier(15, 2 + table as u8 / 2, table as u32 % 2, (1 << 31) / i);
    }
}

/// R of a significand of 3k + t bits.
#[inline(always)]
fn first(k: u32, t: u32, significand: u64) -> u64 {
    ((1u32 << (2 * k + 1)) / (significand >> (2 * k + t - 1)) as u32) as u64
}

/// Steps 2, 3 and 5 over k, with the operation's M, in numbers that hold the products.
macro_rules! steps {
    ($name:ident, $number:ty, $k:literal, $t:literal) => {
        #[inline(always)]
        fn $name(operation: u8, significand: u64, r: u64, m: impl Fn(u8) -> u64) -> u64 {
            const ONE: $number = 1 << (4 * $k);
            let d = significand as $number * r as $number - (ONE << $t);
            let s = if d < 0 { -1 } else { 1 };
            let a = d.abs() >> $t;
            let (a2, a3) = (a >> (2 * $k), a >> $k & ((1 << $k) - 1));
            let h = a2 * a2 >> $k;
            let (square, cross, cube) = (a2 * a2, a2 * a3, s * h * a2);
            let (m, b) = match operation {
                1 => (m(1), (((ONE - s * a + square) << $k) + 2 * cross - cube) >> $k),
                2 => (m(2), (((8 * (2 * ONE + s * a) - 2 * square) << $k) - 4 * cross + cube) >> ($k + 4)),
                _ => (m(3), (((8 * (2 * ONE - s * a) + 6 * square) << $k) + 12 * cross - 5 * cube) >> ($k + 4)),
            };
            (m as $number * b >> (4 * $k)) as u64
        }
    };
}

steps!(steps_of_24_bits, i64, 7, 3);
steps!(steps_of_53_bits, i128, 15, 8);

/// Asks questions 1, 3 and 4 of a call with a significand of so many bits.
#[inline(always)]
fn asked<G>(
    bits: u32,
    operation: u8,
    significand: u64,
    parity: u8,
    refused: impl Fn(u8) -> G,
    accepted: impl FnOnce() -> G,
) -> G {
    if operation < 1 || operation > 3 {
        return refused(1);
    }
    if significand >> (bits - 1) != 1 {
        return refused(3);
    }
    if parity > 1 || parity == 1 && operation == 1 {
        return refused(4);
    }
    accepted()
}

/// The call of 24 bits, with the same checks and the same packing; its tables are made at
/// compile time. Not inlined, since the library's is not either.
#[inline(never)]
fn plain(operation: u8, significand: u32, parity: u8) -> u64 {
    let y = significand as u64;
    asked(24, operation, y, parity, |number| pack(number, 0, 0), || {
        let k = (y >> 16) as usize - 128;
        steps_of_24_bits(operation, y, first(7, 3, y), |operation| match operation {
            1 => RECIPROCAL[k],
            2 => ROOT[parity as usize][k],
            _ => INVERSE_ROOT[parity as usize][k],
        })
    })
}

/// Whether half of a number is below the exact M of a root of 53 bits.
#[inline(always)]
fn below(operation: u8, parity: u8, r: u64, twice: u64) -> bool {
    let square = twice as u128 * twice as u128;
    match operation {
        2 => {
            // The upper part of the square times R.
            let low = square as u64 as u128 * r as u128;
            (square >> 64) * r as u128 + (low >> 64) < 1 << (74 + parity)
        }
        _ => square < (r as u128) << (106 - parity),
    }
}

/// The call of 53 bits with the same checks, that of the entry too. Not inlined either.
#[inline(never)]
fn plain64(operation: u8, significand: u64, parity: u8, tables: &[u64]) -> (u8, u64) {
    asked(53, operation, significand, parity, |number| (number, 0), || {
        let r = first(15, 8, significand);
        if operation == 1 {
            return (0, steps_of_53_bits(1, significand, r, |_| r << 44));
        }
        if tables.len() != TABLES {
            return (15, 0);
        }
        let table = 2 * (operation as usize - 2) + parity as usize;
        let m = tables[table * 32_768 + (significand >> 37) as usize - 32_768];
        let below = |twice| below(operation, parity, r, twice);
        if m == 0 || m >= 1 << 62 || !below(2 * m - 1) || below(2 * m + 1) {
            return (16, 0);
        }
        (0, steps_of_53_bits(operation, significand, r, |_| m))
    })
}

const COUNT: usize = 4096;

/// Compares two calls on significands drawn by chance, after asking for the same answers;
/// others stand beside them.
fn both<'a, S: Copy + Display, G: PartialEq + Debug>(
    name: &str,
    significands: &'a [S],
    unit: impl Fn(u8, S, u8) -> G + Copy + 'a,
    plain: impl Fn(u8, S, u8) -> G + Copy + 'a,
    others: impl Fn(u8, u8) -> Vec<Side<'a>>,
) {
    println!("{name}: ns a call, {COUNT} random significands, best of {ROUNDS} rounds; ratio is unit / other");
    for (name, operation, parity) in [
        ("reciprocal", 1, 0),
        ("root", 2, 0),
        ("root, parity 1", 2, 1),
        ("inverse root", 3, 0),
        ("inverse root, parity 1", 3, 1),
    ] {
        for &y in significands {
            let given = unit(operation, y, parity);
            assert_eq!(given, plain(operation, y, parity), "raw {operation} {y} {parity}");
        }
        let mut sides = vec![
            side("unit", move || {
                for &y in significands {
                    black_box(unit(black_box(operation), y, black_box(parity)));
                }
            }),
            side("plain Rust", move || {
                for &y in significands {
                    black_box(plain(black_box(operation), y, black_box(parity)));
                }
            }),
        ];
        sides.extend(others(operation, parity));
        compare(name, COUNT, sides);
    }
    println!();
}

/// An earlier build of the call of 24 bits.
#[cfg(feature = "before")]
fn before(operation: u8, parity: u8, significands: &[u32]) -> Vec<Side<'_>> {
    for &y in significands {
        // Before #105 M of the roots was floored: up to 1 lower, and the answer up to 2.
        let given = calls::raw(operation, y, parity);
        let earlier = crate::before::raw(operation, y, parity);
        let lower = if operation == 1 { 0 } else { 2 };
        assert!((given - lower..=given).contains(&earlier), "raw {operation} {y} {parity}");
    }
    vec![side("before", move || {
        for &y in significands {
            black_box(crate::before::raw(black_box(operation), y, black_box(parity)));
        }
    })]
}

#[cfg(not(feature = "before"))]
fn before(_: u8, _: u8, _: &[u32]) -> Vec<Side<'_>> {
    Vec::new()
}

pub fn run() {
    let mut chance = Chance(11);
    let significands: Vec<u32> =
        (0..COUNT).map(|_| chance.range(8_388_608, 16_777_215) as u32).collect();
    both("raw", &significands, calls::raw, plain, |operation, parity| before(operation, parity, &significands));

    let significands: Vec<u64> =
        (0..COUNT).map(|_| chance.range(1 << 52, (1 << 53) - 1) as u64).collect();
    let mut tables = vec![0; TABLES];
    assert_eq!(calls::fill_tables(&mut tables), 0);
    let lent = tables.as_slice();
    both(
        "raw, 53 bits",
        &significands,
        move |operation, y, parity| calls::raw64(operation, y, parity, lent),
        move |operation, y, parity| plain64(operation, y, parity, lent),
        |_, _| Vec::new(),
    );
}
