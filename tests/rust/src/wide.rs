//! Products of more than 128 bits, to be compared: the upper part and the lower 64 bits.

pub type Wide = (u128, u64);

/// a * b, which has at most 192 bits.
pub fn times(a: u128, b: u64) -> Wide {
    let low = a as u64 as u128 * b as u128;
    ((a >> 64) * b as u128 + (low >> 64), low as u64)
}

/// 2^k, for k from 64.
pub fn power(k: u32) -> Wide {
    (1 << (k - 64), 0)
}
