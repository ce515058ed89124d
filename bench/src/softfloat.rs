//! Berkeley SoftFloat's division and root as its header declares them, by hand.

use std::hint::black_box;

use plate_tests::reference::{DIVISION_BY_ZERO, INEXACT, INVALID, OVERFLOW, UNDERFLOW};

use crate::timing::{side, Side};

#[repr(C)]
struct Float32 {
    bits: u32,
}

#[repr(C)]
struct Float64 {
    bits: u64,
}

extern "C" {
    static mut softfloat_detectTininess: u8;
    static mut softfloat_roundingMode: u8;
    static mut softfloat_exceptionFlags: u8;
    fn f32_div(a: Float32, b: Float32) -> Float32;
    fn f32_sqrt(a: Float32) -> Float32;
    fn f64_div(a: Float64, b: Float64) -> Float64;
    fn f64_sqrt(a: Float64) -> Float64;
}

/// The bits of a number as SoftFloat works with it, in the rounding that stands.
pub trait Soft: Copy {
    fn reciprocal(self) -> Self;
    fn root(self) -> Self;
}

impl Soft for u32 {
    fn reciprocal(self) -> u32 {
        unsafe { f32_div(Float32 { bits: 1f32.to_bits() }, Float32 { bits: self }) }.bits
    }

    fn root(self) -> u32 {
        unsafe { f32_sqrt(Float32 { bits: self }) }.bits
    }
}

impl Soft for u64 {
    fn reciprocal(self) -> u64 {
        unsafe { f64_div(Float64 { bits: 1f64.to_bits() }, Float64 { bits: self }) }.bits
    }

    fn root(self) -> u64 {
        unsafe { f64_sqrt(Float64 { bits: self }) }.bits
    }
}

const BEFORE_ROUNDING: u8 = 0;

/// SoftFloat's number of each rounding.
const MODES: [u8; 4] = [0, 3, 2, 1];

/// The status of each set of SoftFloat's flags, whose bits stand the other way round.
const STATUSES: [u8; 32] = {
    let flags = [INEXACT, UNDERFLOW, OVERFLOW, DIVISION_BY_ZERO, INVALID];
    let mut statuses = [0; 32];
    let mut k = 0;
    while k < 32 * 5 {
        if k / 5 >> (k % 5) & 1 == 1 {
            statuses[k / 5] |= flags[k % 5];
        }
        k += 1;
    }
    statuses
};

/// The bits and the status that the call gives, by SoftFloat: the rounding set, the flags
/// cleared before and read after. Operation 1 or 2; one thread at a time.
pub fn answer<P: Soft>(operation: u8, rounding: u8, bits: P) -> (P, u8) {
    unsafe {
        softfloat_detectTininess = BEFORE_ROUNDING;
        softfloat_roundingMode = MODES[rounding as usize];
        softfloat_exceptionFlags = 0;
    }
    let given = match operation {
        1 => bits.reciprocal(),
        _ => bits.root(),
    };
    (given, STATUSES[unsafe { softfloat_exceptionFlags } as usize])
}

pub fn whole<P: Soft>(operation: u8, rounding: u8, operands: &[P]) -> Side<'_> {
    side("softfloat", move || {
        for &bits in operands {
            black_box(answer(black_box(operation), black_box(rounding), bits));
        }
    })
}
