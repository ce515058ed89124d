//! plate_binary32 against the machine's division and root and against whole
//! numbers for the inverse root:
//!
//!     cargo test --release --test binary32
//!     PLATE_FULL=1 cargo test --release --test binary32 -- --nocapture
//!
//! The first takes samples, the second all 2^32 patterns, an hour or more.

use plate_tests::chance::Chance;
use plate_tests::formats::{self, Binary32, Unit, OPERATIONS};
use plate_tests::reference::{BINARY32, INVERSE_ROOT, RECIPROCAL, ROOT};
use plate_tests::{vectors, work};

const SAMPLE: u64 = 10_500_000;

fn check(bits: u32) {
    formats::check::<Binary32>(OPERATIONS, bits as u64);
}

/// Patterns spread evenly over the 2^32, or all of them.
#[test]
fn against_the_machine() {
    if work::full() {
        work::over("patterns", 1 << 32, |part| {
            part.for_each(|k| check(k as u32));
            0
        });
    } else {
        work::over("patterns", SAMPLE, |part| {
            part.for_each(|k| check((k as u32).wrapping_mul(0x9E37_79B1)));
            0
        });
    }
}

#[test]
fn edges() {
    formats::edges::<Binary32>();
}

#[test]
fn reference_against_the_machine() {
    work::over("reference", SAMPLE / 8, |part| {
        for k in part {
            let bits = (k as u32).wrapping_mul(0x85EB_CA6B);
            formats::reference_against_the_machine::<Binary32>(bits as u64);
        }
        0
    });
}

#[test]
fn refusals() {
    let mut chance = Chance(2);
    for operation in 0..=255 {
        for rounding in 0..=255 {
            for _ in 0..4 {
                let (bits, status) = (chance.next() as u32 as u64, chance.next() as u8);
                assert_eq!(
                    Binary32::call(operation, rounding, status, bits),
                    Binary32::reference(operation, rounding, status, bits),
                    "binary32 {operation} {rounding} {bits:08X}, status {status}"
                );
            }
        }
    }
}

#[test]
fn sticky_flags() {
    formats::sticky_flags::<Binary32>();
}

/// How many positive finite operands agree. Reciprocal: the powers 2^-127 to 2^127. Inverse root: the powers of four among 2^-149 to 2^127.
/// Root: see `down_and_up`, which lists them by the rule.
const COUNTS: [(u8, u64); 3] = [(RECIPROCAL, 255), (ROOT, 262_143), (INVERSE_ROOT, 138)];

/// Demand 3. The full run asks all positive finite operands and counts those
/// that agree. A short run lists them by the rule, and takes a sample of the rest.
#[test]
fn down_and_up() {
    for (operation, count) in COUNTS {
        let check = |bits: u64| formats::bracket::<Binary32>(operation, bits) as u64;
        if work::full() {
            let counted = work::over("down and up", BINARY32.largest(), |part| {
                part.map(|k| check(k + 1)).sum()
            });
            assert_eq!(counted, count, "operation {operation}");
            continue;
        }
        // Squares m * m below 2^24 at every exponent; a power of two is m = 1.
        let mut listed = 0;
        for m in (1..4096).step_by(2) {
            for q in -149..128 {
                let Some(bits) = BINARY32.pattern(m * m, q) else { continue };
                if formats::agrees::<Binary32>(operation, bits) {
                    listed += check(bits);
                }
            }
        }
        assert_eq!(listed, count, "operation {operation}");
        work::over("down and up", SAMPLE / 4, |part| {
            for k in part {
                check(1 + ((k * 0x9E37_79B1 & 0xFFFF_FFFF) * BINARY32.largest() >> 32));
            }
            0
        });
    }
}

/// The file of calls with the answers of the reference in Python, and the public
/// vectors with theirs, against the library and the Rust reference.
#[test]
fn vector_file() {
    for (given, expected) in vectors::calls("call_vectors", "b") {
        let ([operation, rounding, status], bits) = formats::operands(&given);
        let expected = formats::reply(&expected);
        for call in [Binary32::call, Binary32::reference] {
            assert_eq!(call(operation, rounding, status, bits), expected, "{given:?}");
        }
    }
}
