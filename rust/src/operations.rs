//! One operation on a significand, on an f32 or on an f64.

use crate::refusal::accepted;
use crate::{numbers, Operation, Parity, Refusal, Rounding, Status};

/// How many numbers the tables of the roots of [`raw64`] and [`binary64`] hold, 1 MiB in all:
/// 32,768 each for the root of even and of odd parity, then for the inverse root of both.
pub const TABLES: usize = 131_072;

/// The operation on a significand y of 24 bits, from 2^23 to 2^24 - 1, which stands for
/// y / 2^23. The answer g stands for g / 2^28; it is not rounded, and lies less than 12
/// (reciprocal) or 7 (both roots) of these units from the exact value.
///
/// Refusals: [`Refusal::Significand`], and [`Refusal::Parity`] for the reciprocal with an odd
/// one.
#[inline]
pub fn raw(operation: Operation, significand: u32, parity: Parity) -> Result<u32, Refusal> {
    let given = numbers::raw(operation as u8, significand, parity as u8);
    accepted(numbers::refusal(given))?;
    Ok(numbers::answer(given))
}

/// The operation on x, correctly rounded; its flags are added to the status. A NaN gives
/// [`f32::NAN`]. Every number is accepted, so there is no refusal.
///
/// From 2^-63 to below 2^64 a number comes back: its product with itself, to the nearest, has
/// it as its root to the nearest.
///
/// ```
/// use plate::{Operation, Rounding, Status};
///
/// let mut status = Status::NONE;
/// let width = 1234.5678_f32;
/// let root = plate::binary32(Operation::Root, Rounding::Nearest, width * width, &mut status);
/// assert_eq!(root, width);
/// ```
#[inline]
pub fn binary32(operation: Operation, rounding: Rounding, x: f32, status: &mut Status) -> f32 {
    let given = numbers::binary32(operation as u8, rounding as u8, status.number(), x.to_bits());
    *status = Status::from_number(numbers::status(given));
    f32::from_bits(numbers::answer(given))
}

/// Fills [`TABLES`] numbers, for the roots of [`raw64`] and [`binary64`]. Filled once, they
/// serve any number of calls.
///
/// Refusal: [`Refusal::Tables`] for a slice of another length, of which every number is kept.
#[inline]
pub fn fill_tables(tables: &mut [u64]) -> Result<(), Refusal> {
    accepted(numbers::fill_tables(tables))
}

/// The operation on a significand y of 53 bits, from 2^52 to 2^53 - 1, which stands for
/// y / 2^52. The answer g stands for g / 2^60, and is less than 12 (reciprocal) or 7 (both
/// roots) of these units from the exact value.
///
/// The reciprocal looks at no tables, and takes an empty slice. Refusals: those of [`raw`];
/// then, for both roots, [`Refusal::Tables`] if there are not [`TABLES`] numbers, and
/// [`Refusal::Entry`] if the one that the call uses is not what [`fill_tables`] writes there.
#[inline]
pub fn raw64(
    operation: Operation,
    significand: u64,
    parity: Parity,
    tables: &[u64],
) -> Result<u64, Refusal> {
    let (refusal, answer) = numbers::raw64(operation as u8, significand, parity as u8, tables);
    accepted(refusal)?;
    Ok(answer)
}

/// The operation on x, correctly rounded; its flags are added to the status. A NaN gives
/// [`f64::NAN`].
///
/// The reciprocal looks at no tables, takes an empty slice and is never refused. Refusals of
/// both roots: [`Refusal::Tables`] and [`Refusal::Entry`], as [`raw64`] has them; after one
/// the status is as it was. A zero, an infinity, a NaN and a negative x use no number of the
/// tables.
///
/// ```
/// use plate::{Operation, Rounding, Status};
///
/// let mut tables = vec![0; plate::TABLES];
/// plate::fill_tables(&mut tables)?;
/// let mut status = Status::NONE;
/// let root = plate::binary64(Operation::Root, Rounding::Nearest, 2.0, &mut status, &tables)?;
/// assert_eq!(root, 2f64.sqrt());
/// # Ok::<(), plate::Refusal>(())
/// ```
#[inline]
pub fn binary64(
    operation: Operation,
    rounding: Rounding,
    x: f64,
    status: &mut Status,
    tables: &[u64],
) -> Result<f64, Refusal> {
    let (refusal, bits, new) =
        numbers::binary64(operation as u8, rounding as u8, status.number(), x.to_bits(), tables);
    accepted(refusal)?;
    *status = Status::from_number(new);
    Ok(f64::from_bits(bits))
}
