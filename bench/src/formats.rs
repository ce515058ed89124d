//! The binary32 and the binary64 call beside the machine's division and root, SoftFloat
//! and libmpfr.

use std::fmt::{Debug, UpperHex};
use std::hint::black_box;

use plate_tests::chance::Chance;
use plate_tests::reference::{Format, BINARY32, BINARY64, TABLES};
use plate_tests::{calls, machine};

#[cfg(feature = "mpfr")]
use crate::mpfr::Value;
#[cfg(feature = "softfloat")]
use crate::softfloat::Soft;
use crate::timing::{compare, side, Side, ROUNDS};

#[cfg(not(all(feature = "mpfr", feature = "softfloat")))]
mod absent {
    /// What is asked of a pattern for a library that is left out.
    pub trait Nothing {}
    impl<T> Nothing for T {}
}
#[cfg(not(feature = "softfloat"))]
use absent::Nothing as Soft;
#[cfg(not(feature = "mpfr"))]
use absent::Nothing as Value;

const COUNT: usize = 4096;
const ROUNDINGS: [&str; 4] = ["nearest", "up", "down", "toward zero"];
const OPERATIONS: [&str; 4] = ["", "reciprocal", "root", "inverse root"];

/// The patterns of a format.
pub trait Operand: machine::Pattern + Soft + Value + Copy + PartialEq + Debug + UpperHex {
    const NAME: &'static str;
    const FORMAT: Format;
    /// The machine's instructions, and the prefix of SoftFloat's functions.
    const INSTRUCTIONS: &'static str;
    const FLOAT: &'static str;

    fn from_number(number: u64) -> Self;

    /// What the call gives, as it comes.
    type Given: PartialEq + Debug;

    /// The call with no flag raised. The tables are sound, or empty where there are none.
    fn call(self, operation: u8, rounding: u8, tables: &[u64]) -> Self::Given;

    /// What an accepted call gives with this answer and these flags.
    fn given(answer: Self, flags: u8) -> Self::Given;

    /// One instruction, or two for the inverse root, in the rounding that stands, its
    /// answer through black_box.
    fn instruction(self, operation: u8);

    /// The same call of an earlier build, if it can be had.
    fn before(self, _operation: u8, _rounding: u8) -> Option<Self::Given> {
        None
    }
}

macro_rules! instruction {
    ($float:ident) => {
        #[inline(always)]
        fn instruction(self, operation: u8) {
            let x = black_box($float::from_bits(self));
            black_box(match operation {
                1 => 1.0 / x,
                2 => x.sqrt(),
                _ => 1.0 / x.sqrt(),
            });
        }
    };
}

impl Operand for u32 {
    const NAME: &'static str = "binary32";
    const FORMAT: Format = BINARY32;
    const INSTRUCTIONS: &'static str = "divss or sqrtss";
    const FLOAT: &'static str = "f32";
    type Given = u64;

    fn from_number(number: u64) -> u32 {
        number as u32
    }

    #[inline(always)]
    fn call(self, operation: u8, rounding: u8, _: &[u64]) -> u64 {
        calls::binary32(operation, rounding, 0, self)
    }

    fn given(answer: u32, flags: u8) -> u64 {
        plate_tests::pack(0, flags, answer)
    }

    instruction!(f32);

    #[cfg(feature = "before")]
    #[inline(always)]
    fn before(self, operation: u8, rounding: u8) -> Option<u64> {
        Some(crate::before::binary32(operation, rounding, 0, self))
    }
}

impl Operand for u64 {
    const NAME: &'static str = "binary64";
    const FORMAT: Format = BINARY64;
    const INSTRUCTIONS: &'static str = "divsd or sqrtsd";
    const FLOAT: &'static str = "f64";
    type Given = (u8, u64, u8);

    fn from_number(number: u64) -> u64 {
        number
    }

    #[inline(always)]
    fn call(self, operation: u8, rounding: u8, tables: &[u64]) -> (u8, u64, u8) {
        calls::binary64(operation, rounding, 0, self, tables)
    }

    fn given(answer: u64, flags: u8) -> (u8, u64, u8) {
        (0, answer, flags)
    }

    instruction!(f64);
}

fn unit<'a, P: Operand>(operation: u8, rounding: u8, operands: &'a [P], tables: &'a [u64]) -> Side<'a> {
    side("unit", move || {
        for &bits in operands {
            black_box(bits.call(black_box(operation), black_box(rounding), tables));
        }
    })
}

/// What a line compares: the unit first, then the others that know the operation.
fn sides<'a, P: Operand>(operation: u8, rounding: u8, operands: &'a [P], tables: &'a [u64]) -> Vec<Side<'a>> {
    let mut sides = vec![unit(operation, rounding, operands, tables)];
    if rounding == 0 {
        sides.push(side("instruction", move || {
            for &bits in operands {
                bits.instruction(operation);
            }
        }));
    }
    if operation < 3 {
        sides.push(side("with flags", move || {
            for &bits in operands {
                black_box(machine::answer(operation, rounding, bits));
            }
        }));
        #[cfg(feature = "softfloat")]
        sides.push(crate::softfloat::whole(operation, rounding, operands));
    }
    if operands[0].before(operation, rounding).is_some() {
        sides.push(side("before", move || {
            for &bits in operands {
                black_box(bits.before(black_box(operation), black_box(rounding)));
            }
        }));
    }
    #[cfg(feature = "mpfr")]
    {
        sides.push(crate::mpfr::alone(operation, rounding, operands));
        sides.push(crate::mpfr::whole(operation, rounding, operands));
    }
    sides
}

fn heading<P: Operand>() {
    println!(
        "{}: ns a call, {COUNT} random normal operands, best of {ROUNDS} rounds; ratio is unit / other\n\
         \x20 instruction: {}, nearest, flags not read; for the inverse root both,\n\
         \x20   rounded twice, which is not the same answer\n\
         \x20 with flags: the same with MXCSR set before and read after, as the call does",
        P::NAME,
        P::INSTRUCTIONS
    );
    let float = P::FLOAT;
    if cfg!(feature = "softfloat") {
        println!("\x20 softfloat: {float}_div(1, x) or {float}_sqrt(x), its rounding set before and its flags read after");
    }
    if cfg!(feature = "mpfr") {
        println!(
            "\x20 mpfr: libmpfr at {} bits, exponents unbounded, the operation alone;\n\
             \x20   mpfr {float}: with the ways from and to {float}",
            P::FORMAT.fraction + 1
        );
    }
}

fn run<P: Operand>(tables: &[u64]) {
    let mut chance = Chance(12);
    // Positive normal operands with normal results in all three operations.
    let [low, high] = [1 - P::FORMAT.top(), P::FORMAT.top() - 1].map(|q| P::FORMAT.pattern(1, q).unwrap() as i64);
    let normal: Vec<P> = (0..COUNT).map(|_| P::from_number(chance.range(low, high) as u64)).collect();
    let any: Vec<P> = (0..COUNT).map(|_| P::from_number(chance.next())).collect();
    check(&normal, tables);

    heading::<P>();
    for operation in 1..=3 {
        for rounding in 0..4 {
            let name = format!("{}, {}", OPERATIONS[operation as usize], ROUNDINGS[rounding as usize]);
            compare(&name, COUNT, sides(operation, rounding, &normal, tables));
        }
    }
    for operation in 1..=3 {
        let name = format!("{}, any bits", OPERATIONS[operation as usize]);
        compare(&name, COUNT, vec![unit(operation, 0, &any, tables)]);
    }
}

pub fn binary32() {
    run::<u32>(&[]);
    println!();
}

pub fn binary64() {
    let mut tables = vec![0; TABLES];
    assert_eq!(calls::fill_tables(&mut tables), 0);
    run::<u64>(&tables);
    filling(&tables);
    println!();
}

/// The filling call beside whole roots of 128 bits, which must fill alike.
fn filling(tables: &[u64]) {
    let (mut filled, mut other) = (vec![0; TABLES], vec![0; TABLES]);
    crate::raw::whole_roots(&mut other);
    assert!(other == tables, "the tables differ");
    // Milliseconds are nanoseconds of a millionth of a call.
    compare("filling, in ms", 1_000_000, vec![
        side("unit", || {
            black_box(calls::fill_tables(black_box(&mut filled)));
        }),
        side("whole roots", || crate::raw::whole_roots(black_box(&mut other))),
    ]);
}

/// The answers that are timed must be the same everywhere.
fn check<P: Operand>(operands: &[P], tables: &[u64]) {
    for &bits in operands {
        for rounding in 0..4 {
            for operation in 1..=3 {
                let given = bits.call(operation, rounding, tables);
                let about = || format!("{operation} {rounding} {bits:X}");
                if operation < 3 {
                    let (answer, flags) = machine::answer(operation, rounding, bits);
                    assert_eq!(given, P::given(answer, flags), "{}", about());
                    #[cfg(feature = "softfloat")]
                    assert_eq!((answer, flags), crate::softfloat::answer(operation, rounding, bits), "{}", about());
                }
                if let Some(before) = bits.before(operation, rounding) {
                    assert_eq!(given, before, "{}", about());
                }
                #[cfg(feature = "mpfr")]
                {
                    // Inexact is the only flag of a normal result.
                    let answer = crate::mpfr::answer(operation, rounding, bits);
                    let exact = P::given(answer, 0);
                    assert!(given == exact || given == P::given(answer, 16), "{}", about());
                }
            }
        }
    }
}
