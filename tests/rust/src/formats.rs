//! What the tests of the binary32 and the binary64 call have in common.

use std::ops::RangeInclusive;

use crate::reference::{
    self, Format, ALL_FLAGS, BINARY32, BINARY64, DOWN, INVERSE_ROOT, RECIPROCAL, ROOT, UP,
};
use crate::{calls, machine};

/// Refusal, bits and status.
pub type Reply = (u8, u64, u8);

pub const OPERATIONS: RangeInclusive<u8> = RECIPROCAL..=INVERSE_ROOT;

/// One of the two calls. Patterns are numbers of 64 bits. Tables that are lent are sound.
pub trait Unit {
    const FORMAT: Format;

    /// What the library gives.
    fn call(operation: u8, rounding: u8, status: u8, bits: u64) -> Reply;

    fn reference(operation: u8, rounding: u8, status: u8, bits: u64) -> Reply;

    /// The bits and the flags of the machine's reciprocal or root.
    fn machine(operation: u8, rounding: u8, bits: u64) -> (u64, u8);
}

pub struct Binary32;

impl Unit for Binary32 {
    const FORMAT: Format = BINARY32;

    fn call(operation: u8, rounding: u8, status: u8, bits: u64) -> Reply {
        let packed = calls::binary32(operation, rounding, status, bits as u32);
        assert_eq!(packed >> 48, 0);
        ((packed >> 40) as u8, packed as u32 as u64, (packed >> 32) as u8)
    }

    fn reference(operation: u8, rounding: u8, status: u8, bits: u64) -> Reply {
        let (refusal, answer, new) = reference::binary32(operation, rounding, bits as u32, status);
        (refusal, answer as u64, new)
    }

    fn machine(operation: u8, rounding: u8, bits: u64) -> (u64, u8) {
        let (answer, flags) = machine::answer(operation, rounding, bits as u32);
        (answer as u64, flags)
    }
}

pub struct Binary64;

impl Unit for Binary64 {
    const FORMAT: Format = BINARY64;

    fn call(operation: u8, rounding: u8, status: u8, bits: u64) -> Reply {
        calls::binary64(operation, rounding, status, bits, reference::tables())
    }

    fn reference(operation: u8, rounding: u8, status: u8, bits: u64) -> Reply {
        reference::binary64(operation, rounding, bits, status, reference::tables())
    }

    fn machine(operation: u8, rounding: u8, bits: u64) -> (u64, u8) {
        machine::answer(operation, rounding, bits)
    }
}

/// Each operation in four roundings, against the machine or, for the inverse root, against
/// whole numbers. The status differs from call to call and holds unknown bits too.
pub fn check<U: Unit>(operations: RangeInclusive<u8>, bits: u64) {
    let mut status = (bits.wrapping_mul(0x9E37_79B9_7F4A_7C15) >> 56) as u8;
    for operation in operations {
        for rounding in 0..4 {
            let (answer, flags) = match operation {
                INVERSE_ROOT => {
                    let (_, answer, flags) = U::reference(operation, rounding, 0, bits);
                    (answer, flags)
                }
                _ => U::machine(operation, rounding, bits),
            };
            let expected = (0, answer, status & ALL_FLAGS | flags);
            let given = U::call(operation, rounding, status, bits);
            assert_eq!(
                given, expected,
                "{operation} {rounding} {bits:X}, status {status}: {:X} for {answer:X}", given.1
            );
            status = status.wrapping_mul(5).wrapping_add(59);
        }
    }
}

/// Every exponent with fractions at and near the edges, both signs, and the bounds of
/// overflow, underflow, NaN and infinity among them.
pub fn edges<U: Unit>() {
    let format = U::FORMAT;
    let power = |q: i32| format.pattern(1, q).unwrap();
    let top = format.top();
    for sign in [0, format.sign()] {
        for exponent in 0..1 << format.exponent {
            for k in 0..=format.fraction {
                for change in -3..=3 {
                    let fraction = ((1i64 << k) + change) as u64 & ((1 << format.fraction) - 1);
                    check::<U>(OPERATIONS, sign | exponent << format.fraction | fraction);
                }
            }
        }
        for k in 0..4096 {
            for around in [
                power(-top - 1), power(1 - top), power(top - 1), power(top), format.infinity(), format.nan(),
            ] {
                check::<U>(OPERATIONS, (sign | around - 2048) + k);
            }
        }
    }
}

/// The machine and the whole numbers of src/reference.rs agree as well, so the inverse
/// root's reference shares its rounding with two that the machine bears out.
pub fn reference_against_the_machine<U: Unit>(bits: u64) {
    for operation in [RECIPROCAL, ROOT] {
        for rounding in 0..4 {
            let (_, answer, flags) = U::reference(operation, rounding, 0, bits);
            let machine = U::machine(operation, rounding, bits);
            assert_eq!((answer, flags), machine, "{operation} {rounding} {bits:X}");
        }
    }
}

/// Every status with every flag that an operation can raise.
pub fn sticky_flags<U: Unit>() {
    let format = U::FORMAT;
    let [one, three] = [1, 3].map(|m| format.pattern(m, 0).unwrap());
    for bits in [
        one, three, 0, format.sign(), format.sign() | one, format.infinity() + 1, format.nan(), 1,
        format.largest(), format.infinity(),
    ] {
        for operation in OPERATIONS {
            for status in 0..=255 {
                let expected = U::reference(operation, 0, status, bits);
                assert_eq!(U::call(operation, 0, status, bits), expected, "{operation} {bits:X}");
                assert_eq!(expected.2 & status, status & ALL_FLAGS);
            }
        }
    }
}

/// Demand 3's condition on a positive finite operand, m * 2^q with m odd.
pub fn agrees<U: Unit>(operation: u8, bits: u64) -> bool {
    let (m, q) = U::FORMAT.normal(bits);
    let (m, q) = (m >> m.trailing_zeros(), q + m.trailing_zeros() as i32);
    let top = U::FORMAT.top();
    match operation {
        RECIPROCAL => m == 1 && (-top..=top).contains(&q),
        ROOT => q % 2 == 0 && m.isqrt().pow(2) == m,
        _ => m == 1 && q % 2 == 0,
    }
}

/// Demand 3 of a positive finite operand: whether the lower and the upper answer are
/// equal, as they must be exactly where its condition holds; if not, the upper must be the
/// next pattern. The two calls are given different flags.
pub fn bracket<U: Unit>(operation: u8, bits: u64) -> bool {
    let lower = U::call(operation, DOWN, bits as u8, bits);
    let upper = U::call(operation, UP, !bits as u8, bits);
    assert_eq!((lower.0, upper.0), (0, 0));
    let (lower, upper) = (lower.1, upper.1);
    assert!(upper == lower || upper == lower + 1, "{operation} {bits:X}: {lower:X} {upper:X}");
    assert_eq!(upper == lower, agrees::<U>(operation, bits), "{operation} {bits:X}");
    upper == lower
}

/// Operation, rounding and status, and the bits, of a line of a vector file.
pub fn operands(words: &[String]) -> ([u8; 3], u64) {
    assert_eq!(words.len(), 4);
    ([0, 1, 3].map(|k: usize| words[k].parse().unwrap()), u64::from_str_radix(&words[2], 16).unwrap())
}

pub fn reply(words: &[String]) -> Reply {
    assert_eq!(words.len(), 3);
    let [refusal, status] = [0, 2].map(|k: usize| words[k].parse().unwrap());
    (refusal, u64::from_str_radix(&words[1], 16).unwrap(), status)
}
