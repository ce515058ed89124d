//! The plate unit: reciprocal, root and inverse root of a significand, of an `f32` and of an
//! `f64`, and the list of centres that a ball cutter follows over a height map. The calls are
//! those of the C library libplate, whose code is proved; `include/plate.h` beside it
//! describes them for C. For x86-64 under Linux.
//!
//! A call allocates nothing, keeps nothing between calls, may be made by any thread at any
//! time, and neither reads nor changes the machine's rounding mode or its flags. What it
//! cannot take it refuses: a [`Refusal`] has a number and a sentence.
//!
//! ```
//! use plate::{Operation, Rounding, Status};
//!
//! let mut status = Status::NONE;
//! let third = plate::binary32(Operation::Reciprocal, Rounding::Down, 3.0, &mut status);
//! assert_eq!(third.to_bits(), 0x3EAA_AAAA);
//! assert_eq!(status, Status::INEXACT);
//! ```
//!
//! The calls of this page take operations, roundings and parities that there are. Those of
//! [`numbers`] take every number, as the C functions do.
#![no_std]
#![warn(missing_docs)]

mod kinds;
mod lists;
pub mod numbers;
mod operations;
mod refusal;
mod status;

pub use kinds::{Operation, Parity, Rounding};
pub use lists::{lifted_list, list, list_length, record, Record, LONGEST_LIST, LONGEST_MAP};
pub use operations::{binary32, binary64, fill_tables, raw, raw64, TABLES};
pub use refusal::Refusal;
pub use status::Status;

/// The version of this package, and of the library and the header that it is for.
pub const VERSION: &str = env!("CARGO_PKG_VERSION");
