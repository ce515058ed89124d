//! The C functions as they are, on plain numbers and slices. Any number may be passed: a call
//! checks them itself, and what it cannot take gets the number of a
//! [`Refusal`](crate::Refusal), where 0 says that it was accepted.
//!
//! [`raw`], [`binary32`] and the two list calls give one 64-bit number, which [`answer`],
//! [`status`] and [`refusal`] take apart:
//!
//! | Bits | |
//! |---|---|
//! | 0 to 31 | the answer, or the list's length in bytes; 0 after a refusal |
//! | 32 to 39 | the new status; 0 for the raw and the list calls |
//! | 40 to 47 | the refusal |
//! | 48 to 63 | 0 |

/// PLATE_ROUNDING_UNKNOWN.
const ROUNDING_UNKNOWN: u8 = 255;

/// The struct plate_record_reply.
#[repr(C)]
struct RecordReply {
    refusal: u8,
    rounding: u8,
    width: u32,
    depth: u32,
    step: u32,
    radius: u32,
    x: i32,
    y: i32,
    z: i32,
}

/// The struct plate_raw64_reply.
#[repr(C)]
struct Raw64Reply {
    refusal: u8,
    answer: u64,
}

/// The struct plate_binary64_reply.
#[repr(C)]
struct Binary64Reply {
    refusal: u8,
    status: u8,
    bits: u64,
}

// They take every number. A pointer must span the length given with it, also one of 0, and
// what is written must not overlap what is read: so it is with the slices below.
extern "C" {
    fn plate_raw(operation: u8, significand: u32, parity: u8) -> u64;
    fn plate_binary32(operation: u8, rounding: u8, status: u8, bits: u32) -> u64;
    fn plate_fill_tables(tables: *mut u64, entries: usize) -> u8;
    fn plate_raw64(
        operation: u8,
        significand: u64,
        parity: u8,
        tables: *const u64,
        entries: usize,
    ) -> Raw64Reply;
    fn plate_binary64(
        operation: u8,
        rounding: u8,
        status: u8,
        bits: u64,
        tables: *const u64,
        entries: usize,
    ) -> Binary64Reply;
    fn plate_list(
        rounding: u8,
        map: *const u8,
        map_length: usize,
        list: *mut u8,
        list_length: usize,
    ) -> u64;
    fn plate_lifted_list(
        rounding: u8,
        map: *const u8,
        map_length: usize,
        list: *mut u8,
        list_length: usize,
    ) -> u64;
    fn plate_record(list: *const u8, list_length: usize, index: usize) -> RecordReply;
}

/// The answer, or the list's length, in a 64-bit number that a call gave.
#[inline]
pub const fn answer(given: u64) -> u32 {
    given as u32
}

/// The status in a 64-bit number that a call gave.
#[inline]
pub const fn status(given: u64) -> u8 {
    (given >> 32) as u8
}

/// The refusal in a 64-bit number that a call gave.
#[inline]
pub const fn refusal(given: u64) -> u8 {
    (given >> 40) as u8
}

/// plate_raw. Refusals: 1, 3, 4.
#[inline]
pub fn raw(operation: u8, significand: u32, parity: u8) -> u64 {
    unsafe { plate_raw(operation, significand, parity) }
}

/// plate_binary32, on the bits of an `f32`. Refusals: 1, 2; after one the status is the one
/// given.
#[inline]
pub fn binary32(operation: u8, rounding: u8, status: u8, bits: u32) -> u64 {
    unsafe { plate_binary32(operation, rounding, status, bits) }
}

/// plate_fill_tables. Gives the refusal: 0 or 15.
#[inline]
pub fn fill_tables(tables: &mut [u64]) -> u8 {
    unsafe { plate_fill_tables(tables.as_mut_ptr(), tables.len()) }
}

/// plate_raw64. Gives the refusal and the answer. Refusals: 1, 3, 4, 15, 16.
#[inline]
pub fn raw64(operation: u8, significand: u64, parity: u8, tables: &[u64]) -> (u8, u64) {
    let reply = unsafe { plate_raw64(operation, significand, parity, tables.as_ptr(), tables.len()) };
    (reply.refusal, reply.answer)
}

/// plate_binary64, on the bits of an `f64`. Gives the refusal, the bits and the status.
/// Refusals: 1, 2, 15, 16; after one the status is the one given.
#[inline]
pub fn binary64(operation: u8, rounding: u8, status: u8, bits: u64, tables: &[u64]) -> (u8, u64, u8) {
    let reply =
        unsafe { plate_binary64(operation, rounding, status, bits, tables.as_ptr(), tables.len()) };
    (reply.refusal, reply.bits, reply.status)
}

/// plate_list. Refusals: 2, 5 to 11; after one the buffer is as it was.
#[inline]
pub fn list(rounding: u8, map: &[u8], buffer: &mut [u8]) -> u64 {
    unsafe { plate_list(rounding, map.as_ptr(), map.len(), buffer.as_mut_ptr(), buffer.len()) }
}

/// plate_lifted_list. Refusals: 2, 5 to 11; after one the buffer is as it was.
#[inline]
pub fn lifted_list(rounding: u8, map: &[u8], buffer: &mut [u8]) -> u64 {
    unsafe { plate_lifted_list(rounding, map.as_ptr(), map.len(), buffer.as_mut_ptr(), buffer.len()) }
}

/// What [`record`] gives: the refusal; the rounding, if the list says it; its columns, rows,
/// step and radius; x, y and z of the record. After a refusal no rounding and zeros.
pub type Reading = (u8, Option<u8>, [u32; 4], [i32; 3]);

/// plate_record. Refusals: 5, 12, 7, 8, 13, 2, 14, in this order.
#[inline]
pub fn record(list: &[u8], index: usize) -> Reading {
    let reply = unsafe { plate_record(list.as_ptr(), list.len(), index) };
    (
        reply.refusal,
        (reply.rounding != ROUNDING_UNKNOWN).then_some(reply.rounding),
        [reply.width, reply.depth, reply.step, reply.radius],
        [reply.x, reply.y, reply.z],
    )
}
