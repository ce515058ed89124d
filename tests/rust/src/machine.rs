//! The machine's own division and square root of f32 and f64, with the rounding
//! and the flags of MXCSR.
//!
//! Two habits of x86 differ from document 01:
//!
//! - Its NaN answers keep a payload or carry a sign. Any NaN counts as 7FC00000,
//!   of f64 as 7FF8000000000000.
//! - It finds tininess after rounding, document 01 before. The two part only
//!   where an exact result below 2^-126 in magnitude is rounded, with 24 bits and
//!   an unbounded exponent, to 2^-126. No reciprocal is such a result: the operand
//!   nearest above 2^126 is 2^126 (1 + 2^-23), and its reciprocal lies more than
//!   2^-126 · 2^-24, one unit of that grid, below 2^-126. Nor is one of f64: there
//!   the numbers are 2^-1022, 53 bits and 2^1022 (1 + 2^-52), whose reciprocal lies
//!   2^-1022 · 2^-52 / (1 + 2^-52) below 2^-1022, where a unit of the grid is
//!   2^-1022 · 2^-53. Roots and inverse roots are never that small. So the underflow
//!   flags of the two agree for every operand, and no operand tells one rule from
//!   the other.

use core::arch::asm;

use crate::reference::{BINARY32, BINARY64, DIVISION_BY_ZERO, INEXACT, INVALID, OVERFLOW, RECIPROCAL, UNDERFLOW};

const ALL_MASKED: u32 = 0x1F80;

/// MXCSR for a rounding of document 01, all exceptions masked, no flag raised.
fn control(rounding: u8) -> u32 {
    let x86_rounding = match rounding {
        0 => 0,     // nearest
        1 => 2,     // up
        2 => 1,     // down
        _ => 3,     // toward zero
    };
    ALL_MASKED | x86_rounding << 13
}

/// Document 01's flags from the machine's.
fn flags(mxcsr: u32) -> u8 {
    let mut flags = 0;
    for (bit, flag) in [
        (0, INVALID),
        (2, DIVISION_BY_ZERO),      // bit 1, denormal operand, is x86's own
        (3, OVERFLOW),
        (4, UNDERFLOW),
        (5, INEXACT),
    ] {
        if mxcsr >> bit & 1 == 1 {
            flags |= flag;
        }
    }
    flags
}

/// The bits of an f32 or an f64.
pub trait Pattern: Sized {
    /// The bits and the flags of 1 / x.
    fn reciprocal(self, rounding: u8) -> (Self, u8);

    /// The bits and the flags of the root of x.
    fn root(self, rounding: u8) -> (Self, u8);
}

/// The bits and the flags of an instruction that takes 1 and x.
macro_rules! run {
    ($float:ident, $nan:expr, $instruction:literal, $rounding:expr, $bits:expr) => {{
        let mut before = 0u32;
        let mut mxcsr = control($rounding);
        let mut answer: $float = 1.0;
        unsafe {
            asm!(
                "stmxcsr [{before}]",
                "ldmxcsr [{mxcsr}]",
                concat!($instruction, " {answer}, {x}"),
                "stmxcsr [{mxcsr}]",
                "ldmxcsr [{before}]",
                before = in(reg) &mut before,
                mxcsr = in(reg) &mut mxcsr,
                answer = inout(xmm_reg) answer,
                x = in(xmm_reg) $float::from_bits($bits),
                options(nostack),
            );
        }
        (if answer.is_nan() { $nan } else { answer.to_bits() }, flags(mxcsr))
    }};
}

impl Pattern for u32 {
    fn reciprocal(self, rounding: u8) -> (u32, u8) {
        run!(f32, BINARY32.nan() as u32, "divss", rounding, self)
    }

    fn root(self, rounding: u8) -> (u32, u8) {
        run!(f32, BINARY32.nan() as u32, "sqrtss", rounding, self)
    }
}

impl Pattern for u64 {
    fn reciprocal(self, rounding: u8) -> (u64, u8) {
        run!(f64, BINARY64.nan(), "divsd", rounding, self)
    }

    fn root(self, rounding: u8) -> (u64, u8) {
        run!(f64, BINARY64.nan(), "sqrtsd", rounding, self)
    }
}

/// The bits and the flags that the machine gives to operation 1 or 2.
pub fn answer<P: Pattern>(operation: u8, rounding: u8, bits: P) -> (P, u8) {
    match operation {
        RECIPROCAL => bits.reciprocal(rounding),
        _ => bits.root(rounding),
    }
}
