//! The functions of plate::numbers made from the references of this package, for trying
//! the tests where there is no library. A green run with it says nothing about the
//! library; it says that the references agree with the machine, with the vector files
//! and among themselves.

use crate::{pack, reference};

pub use crate::reference::{fill_tables, raw64, record};

pub fn raw(operation: u8, significand: u32, parity: u8) -> u64 {
    let (refusal, answer) = reference::raw(operation, significand, parity);
    pack(refusal, 0, answer)
}

pub fn binary32(operation: u8, rounding: u8, status: u8, bits: u32) -> u64 {
    let (refusal, answer, status) = reference::binary32(operation, rounding, bits, status);
    pack(refusal, status, answer)
}

pub fn binary64(operation: u8, rounding: u8, status: u8, bits: u64, tables: &[u64]) -> (u8, u64, u8) {
    reference::binary64(operation, rounding, bits, status, tables)
}

pub fn list(rounding: u8, map: &[u8], list: &mut [u8]) -> u64 {
    let (refusal, length) = reference::list(rounding, map, list);
    pack(refusal, 0, length)
}

pub fn lifted_list(rounding: u8, map: &[u8], list: &mut [u8]) -> u64 {
    let (refusal, length) = reference::lifted_list(rounding, map, list);
    pack(refusal, 0, length)
}
