//! libmpfr's functions as its header declares them, by hand.

use std::ffi::{c_int, c_long, c_ulong};
use std::hint::black_box;

use crate::timing::{side, Side};

#[repr(C)]
pub struct Number {
    precision: c_long,
    sign: c_int,
    exponent: c_long,
    limbs: *mut c_ulong,
}

extern "C" {
    fn mpfr_init2(x: *mut Number, precision: c_long);
    fn mpfr_clear(x: *mut Number);
    fn mpfr_set_flt(x: *mut Number, value: f32, rounding: c_int) -> c_int;
    fn mpfr_get_flt(x: *const Number, rounding: c_int) -> f32;
    fn mpfr_set_d(x: *mut Number, value: f64, rounding: c_int) -> c_int;
    fn mpfr_get_d(x: *const Number, rounding: c_int) -> f64;
    fn mpfr_ui_div(to: *mut Number, one: c_ulong, x: *const Number, rounding: c_int) -> c_int;
    fn mpfr_sqrt(to: *mut Number, x: *const Number, rounding: c_int) -> c_int;
    fn mpfr_rec_sqrt(to: *mut Number, x: *const Number, rounding: c_int) -> c_int;
}

/// The bits of an f32 or an f64, and its way to a number and back.
pub trait Value: Copy {
    const PRECISION: c_long;
    const WHOLE: &'static str;
    fn set(self, number: &mut Number);
    fn get(number: &Number) -> Self;
}

impl Value for u32 {
    const PRECISION: c_long = 24;
    const WHOLE: &'static str = "mpfr f32";

    fn set(self, number: &mut Number) {
        unsafe { mpfr_set_flt(number, f32::from_bits(self), 0) };
    }

    fn get(number: &Number) -> u32 {
        unsafe { mpfr_get_flt(number, 0) }.to_bits()
    }
}

impl Value for u64 {
    const PRECISION: c_long = 53;
    const WHOLE: &'static str = "mpfr f64";

    fn set(self, number: &mut Number) {
        unsafe { mpfr_set_d(number, f64::from_bits(self), 0) };
    }

    fn get(number: &Number) -> u64 {
        unsafe { mpfr_get_d(number, 0) }.to_bits()
    }
}

impl Number {
    fn new<P: Value>() -> Number {
        let mut number = std::mem::MaybeUninit::uninit();
        unsafe {
            mpfr_init2(number.as_mut_ptr(), P::PRECISION);
            number.assume_init()
        }
    }

    /// The result of the operation on x, in a rounding of document 01.
    fn work(&mut self, operation: u8, rounding: u8, x: &Number) {
        let rounding = match rounding {
            0 => 0,     // MPFR_RNDN
            1 => 2,     // MPFR_RNDU
            2 => 3,     // MPFR_RNDD
            _ => 1,     // MPFR_RNDZ
        };
        unsafe {
            match operation {
                1 => mpfr_ui_div(self, 1, x, rounding),
                2 => mpfr_sqrt(self, x, rounding),
                _ => mpfr_rec_sqrt(self, x, rounding),
            };
        }
    }
}

impl Drop for Number {
    fn drop(&mut self) {
        unsafe { mpfr_clear(self) };
    }
}

/// The answer's bits, for an operand with a normal result.
pub fn answer<P: Value>(operation: u8, rounding: u8, bits: P) -> P {
    let (mut x, mut to) = (Number::new::<P>(), Number::new::<P>());
    bits.set(&mut x);
    to.work(operation, rounding, &x);
    P::get(&to)
}

/// The operation alone, its operands made beforehand.
pub fn alone<P: Value>(operation: u8, rounding: u8, operands: &[P]) -> Side<'static> {
    let numbers: Vec<Number> = operands
        .iter()
        .map(|&bits| {
            let mut x = Number::new::<P>();
            bits.set(&mut x);
            x
        })
        .collect();
    let mut to = Number::new::<P>();
    side("mpfr", move || {
        for x in &numbers {
            to.work(black_box(operation), black_box(rounding), x);
            black_box(&to);
        }
    })
}

/// From f32 to f32, or from f64 to f64.
pub fn whole<P: Value>(operation: u8, rounding: u8, operands: &[P]) -> Side<'_> {
    let (mut x, mut to) = (Number::new::<P>(), Number::new::<P>());
    side(P::WHOLE, move || {
        for &bits in operands {
            bits.set(&mut x);
            to.work(black_box(operation), black_box(rounding), &x);
            black_box(P::get(&to));
        }
    })
}
