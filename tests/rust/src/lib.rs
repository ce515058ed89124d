//! What the tests of the static library share. Nothing here was written from
//! the unit's code.

pub mod chance;
pub mod formats;
pub mod machine;
pub mod maps;
pub mod reference;
pub mod slices;
#[cfg(not(feature = "library"))]
pub mod stand_in;
pub mod vectors;
pub mod wide;
pub mod work;

/// The C functions, or what stands in for them.
#[cfg(feature = "library")]
pub use plate::numbers as calls;
#[cfg(not(feature = "library"))]
pub use stand_in as calls;

/// The 64-bit number that a call gives.
pub fn pack(refusal: u8, status: u8, answer: u32) -> u64 {
    (refusal as u64) << 40 | (status as u64) << 32 | answer as u64
}
