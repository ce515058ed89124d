//! The calls on numbers of an earlier build of the library.

extern "C" {
    fn before_plate_raw(operation: u8, significand: u32, parity: u8) -> u64;
    fn before_plate_binary32(operation: u8, rounding: u8, status: u8, bits: u32) -> u64;
}

#[inline]
pub fn raw(operation: u8, significand: u32, parity: u8) -> u64 {
    unsafe { before_plate_raw(operation, significand, parity) }
}

#[inline]
pub fn binary32(operation: u8, rounding: u8, status: u8, bits: u32) -> u64 {
    unsafe { before_plate_binary32(operation, rounding, status, bits) }
}
