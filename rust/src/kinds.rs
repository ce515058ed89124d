//! Operations, roundings and parities. The number that the C functions know one by is
//! `kind as u8`, and `Kind::try_from(number)` leads back.

use crate::Refusal;

/// What is made of Y.
#[derive(Clone, Copy, Debug, PartialEq, Eq, Hash)]
#[repr(u8)]
pub enum Operation {
    /// 1 / Y
    Reciprocal = 1,
    /// The square root of Y
    Root = 2,
    /// 1 over the square root of Y
    InverseRoot = 3,
}

/// Which of two neighbours stands for an exact number between them.
#[derive(Clone, Copy, Debug, PartialEq, Eq, Hash)]
#[repr(u8)]
pub enum Rounding {
    /// To the nearest, of two that are as near the even one
    Nearest = 0,
    /// Toward plus infinity
    Up = 1,
    /// Toward minus infinity
    Down = 2,
    /// Toward zero
    TowardZero = 3,
}

/// Of the exponent of a number Y times a power of two. A root halves the exponent, so an odd
/// one leaves a factor 2 with Y: both roots are then those of 2 Y.
#[derive(Clone, Copy, Debug, PartialEq, Eq, Hash)]
#[repr(u8)]
pub enum Parity {
    /// The exponent is even. The reciprocal takes this parity alone.
    Even = 0,
    /// The exponent is odd.
    Odd = 1,
}

impl TryFrom<u8> for Operation {
    type Error = Refusal;

    fn try_from(number: u8) -> Result<Operation, Refusal> {
        match number {
            1 => Ok(Operation::Reciprocal),
            2 => Ok(Operation::Root),
            3 => Ok(Operation::InverseRoot),
            _ => Err(Refusal::Operation),
        }
    }
}

impl TryFrom<u8> for Rounding {
    type Error = Refusal;

    fn try_from(number: u8) -> Result<Rounding, Refusal> {
        match number {
            0 => Ok(Rounding::Nearest),
            1 => Ok(Rounding::Up),
            2 => Ok(Rounding::Down),
            3 => Ok(Rounding::TowardZero),
            _ => Err(Refusal::Rounding),
        }
    }
}

impl TryFrom<u8> for Parity {
    type Error = Refusal;

    fn try_from(number: u8) -> Result<Parity, Refusal> {
        match number {
            0 => Ok(Parity::Even),
            1 => Ok(Parity::Odd),
            _ => Err(Refusal::Parity),
        }
    }
}
