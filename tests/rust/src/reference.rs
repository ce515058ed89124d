//! Document 01 in plain Rust with whole numbers, the three layers in its order, with
//! document 02's nearest M (#105), binary64 (#106), its rounding in the list (#102), its
//! lifted list (#104) and its reader (#101). Each call gives its refusal first, 0 if it
//! was accepted.

use std::cmp::Ordering;
use std::sync::LazyLock;

pub const RECIPROCAL: u8 = 1;
pub const ROOT: u8 = 2;
pub const INVERSE_ROOT: u8 = 3;

pub const NEAREST: u8 = 0;
pub const UP: u8 = 1;
pub const DOWN: u8 = 2;
pub const TOWARD_ZERO: u8 = 3;

pub const INVALID: u8 = 1;
pub const DIVISION_BY_ZERO: u8 = 2;
pub const OVERFLOW: u8 = 4;
pub const UNDERFLOW: u8 = 8;
pub const INEXACT: u8 = 16;
pub const ALL_FLAGS: u8 = 31;

// ------------------------------------------------- Whole numbers of any width

/// Where an exact number stands: over n units below the middle to the next, at it
/// or above it. None: it is n units.
type Rest = Option<Ordering>;

/// 2^k / d as a whole number and the remainder, for k up to 191 and d below 2^64.
/// The whole number has 128 bits at most.
fn quotient(k: u32, d: u128) -> (u128, u128) {
    let first = k.min(127);
    let (n, remainder) = ((1 << first) / d, (1 << first) % d);
    if k == first {
        return (n, remainder);
    }
    // The remainder, with the other factors of two, divided in its turn.
    let other = remainder << (k - first);
    ((n << (k - first)) + other / d, other % d)
}

/// Half the root, as units and the rest, of a whole number or of one that is more
/// and less than the next.
fn half_root(whole: u128, more: bool) -> (u128, Rest) {
    let root = whole.isqrt();
    let rest = match (more || root * root != whole, root % 2 == 1) {
        (false, false) => None,
        (false, true) => Some(Ordering::Equal),
        (true, false) => Some(Ordering::Less),
        (true, true) => Some(Ordering::Greater),
    };
    (root / 2, rest)
}

// ------------------------------------------------------------------ Raw unit

/// The steps of the raw unit over k, and of t, the bits that a drops from d: the
/// significand has 3k + t bits.
#[derive(Clone, Copy)]
struct Width {
    k: u32,
    t: u32,
}

const OF_24_BITS: Width = Width { k: 7, t: 3 };
const OF_53_BITS: Width = Width { k: 15, t: 8 };

impl Width {
    /// i of step 1.
    fn interval(self, significand: u64) -> u64 {
        significand >> (2 * self.k + self.t - 1)
    }

    /// R of step 1.
    fn first(self, i: u64) -> u64 {
        (1 << (2 * self.k + 1)) / i
    }

    /// M of step 4, by the rule of #105 for both roots.
    fn multiplier(self, operation: u8, p: u8, i: u64) -> u64 {
        let (k, p, r) = (self.k, p as u32, self.first(i) as u128);
        // Four times the square of the exact M of a root, and whether it is more.
        let (square, more) = match operation {
            RECIPROCAL => return (r << (3 * k - 1)) as u64,
            ROOT => {
                let (n, remainder) = quotient(9 * k + 1 + p + 2, r);
                (n, remainder != 0)
            }
            _ => (r << (8 * k + 2 - (k + 1 + p)), false),
        };
        let (low, rest) = half_root(square, more);
        assert!(rest != Some(Ordering::Equal), "M {operation} {p} {i} is half-way");
        low as u64 + (rest == Some(Ordering::Greater)) as u64
    }

    /// The first question of 1, 3 and 4 that is answered "no", or 0.
    fn refusal(self, operation: u8, significand: u64, parity: u8) -> u8 {
        let Width { k, t } = self;
        if !(1..=3).contains(&operation) {
            return 1;
        }
        if !(1 << (3 * k + t - 1)..1 << (3 * k + t)).contains(&significand) {
            return 3;
        }
        if !(parity == 0 || parity == 1 && operation != RECIPROCAL) {
            return 4;
        }
        0
    }

    /// Steps 1 to 3 and 5 with this M.
    fn answer(self, operation: u8, significand: u64, m: u64) -> u64 {
        let Width { k, t } = self;
        let y = significand as i128;
        let r = self.first(self.interval(significand)) as i128;
        let d = y * r - (1 << (4 * k + t));
        let s = if d < 0 { -1 } else { 1 };
        let a = d.abs() >> t;
        let (a2, a3) = (a >> (2 * k), a >> k & ((1 << k) - 1));
        let h = a2 * a2 >> k;
        let one = 1i128 << (4 * k);
        // Every sum is positive, so the shifts are the floored divisions.
        let b = match operation {
            RECIPROCAL => (((one - s * a + a2 * a2) << k) + 2 * a2 * a3 - s * h * a2) >> k,
            ROOT => {
                let sum = (one << (k + 4)) + ((s * a) << (k + 3)) - ((a2 * a2) << (k + 1));
                (sum - 4 * a2 * a3 + s * h * a2) >> (k + 4)
            }
            _ => {
                let sum = (one << (k + 4)) - ((s * a) << (k + 3)) + ((3 * a2 * a2) << (k + 1));
                (sum + 12 * a2 * a3 - 5 * s * h * a2) >> (k + 4)
            }
        };
        (m as i128 * b >> (4 * k)) as u64
    }
}

/// M by operation, parity and i of 7 bits and more.
static MULTIPLIERS: LazyLock<[[[u64; 128]; 2]; 3]> = LazyLock::new(|| {
    [RECIPROCAL, ROOT, INVERSE_ROOT].map(|operation| {
        [0, 1].map(|p| std::array::from_fn(|k| OF_24_BITS.multiplier(operation, p, 128 + k as u64)))
    })
});

pub fn raw(operation: u8, significand: u32, parity: u8) -> (u8, u32) {
    let significand = significand as u64;
    let refusal = OF_24_BITS.refusal(operation, significand, parity);
    if refusal != 0 {
        return (refusal, 0);
    }
    let i = OF_24_BITS.interval(significand) as usize;
    let m = MULTIPLIERS[operation as usize - 1][parity as usize][i - 128];
    (0, OF_24_BITS.answer(operation, significand, m) as u32)
}

// --------------------------------------------- Raw unit of 53 bits (02, #106)

/// How many numbers the four tables of M have together.
pub const TABLES: usize = 131_072;

static FILLED: LazyLock<Vec<u64>> = LazyLock::new(|| {
    let mut tables = Vec::new();
    for (operation, p) in [(ROOT, 0), (ROOT, 1), (INVERSE_ROOT, 0), (INVERSE_ROOT, 1)] {
        tables.extend((32_768..65_536).map(|i| OF_53_BITS.multiplier(operation, p, i)));
    }
    tables
});

/// The four tables of M.
pub fn tables() -> &'static [u64] {
    &FILLED
}

/// Where the entry stands that a root of this significand uses.
pub fn place(operation: u8, significand: u64, parity: u8) -> usize {
    let table = 2 * (operation as usize - 2) + parity as usize;
    table * 32_768 + OF_53_BITS.interval(significand) as usize - 32_768
}

pub fn fill_tables(slice: &mut [u64]) -> u8 {
    if slice.len() != TABLES {
        return 15;
    }
    slice.copy_from_slice(tables());
    0
}

/// Questions 15 and 16 of a root: the length, then the entry, if one is used.
fn tables_refusal(slice: &[u64], used: Option<usize>) -> u8 {
    if slice.len() != TABLES {
        return 15;
    }
    if used.is_some_and(|place| slice[place] != tables()[place]) {
        return 16;
    }
    0
}

pub fn raw64(operation: u8, significand: u64, parity: u8, slice: &[u64]) -> (u8, u64) {
    let mut refusal = OF_53_BITS.refusal(operation, significand, parity);
    if refusal == 0 && operation != RECIPROCAL {
        refusal = tables_refusal(slice, Some(place(operation, significand, parity)));
    }
    if refusal != 0 {
        return (refusal, 0);
    }
    let m = match operation {
        RECIPROCAL => OF_53_BITS.multiplier(RECIPROCAL, 0, OF_53_BITS.interval(significand)),
        _ => tables()[place(operation, significand, parity)],
    };
    (0, OF_53_BITS.answer(operation, significand, m))
}

// ---------------------------------------------- Binary32 and binary64 (#106)

/// A binary format: the bits of its fraction and of its exponent. Its patterns are
/// numbers of 64 bits, also those of 32.
#[derive(Clone, Copy)]
pub struct Format {
    pub fraction: u32,
    pub exponent: u32,
}

pub const BINARY32: Format = Format { fraction: 23, exponent: 8 };
pub const BINARY64: Format = Format { fraction: 52, exponent: 11 };

impl Format {
    pub const fn sign(self) -> u64 {
        1 << (self.fraction + self.exponent)
    }

    pub const fn infinity(self) -> u64 {
        ((1 << self.exponent) - 1) << self.fraction
    }

    /// The largest finite number.
    pub const fn largest(self) -> u64 {
        self.infinity() - 1
    }

    pub const fn nan(self) -> u64 {
        self.infinity() | 1 << (self.fraction - 1)
    }

    /// The exponent of the largest power of two, 127 or 1023.
    pub const fn top(self) -> i32 {
        (1 << (self.exponent - 1)) - 1
    }

    /// The exponent of the smallest power of two, -149 or -1074.
    pub const fn least(self) -> i32 {
        1 - self.top() - self.fraction as i32
    }

    /// A positive finite pattern as m * 2^q with m of all bits of a significand.
    pub fn normal(self, magnitude: u64) -> (u64, i32) {
        let (e, f) = ((magnitude >> self.fraction) as i32, magnitude & ((1 << self.fraction) - 1));
        if e > 0 {
            return (f | 1 << self.fraction, e + self.least() - 1);
        }
        let shift = self.fraction - f.ilog2();
        (f << shift, self.least() - shift as i32)
    }

    /// The pattern of m * 2^q, if it is a finite number of the format and m has no more
    /// bits than a significand.
    pub fn pattern(self, m: u64, q: i32) -> Option<u64> {
        let top = q + m.ilog2() as i32;
        if top > self.top() || q < self.least() {
            return None;
        }
        if top <= -self.top() {
            return Some(m << (q - self.least()));
        }
        Some((((top + self.top() - 1) as u64) << self.fraction) + (m << (self.fraction - m.ilog2())))
    }
}

/// Whether the upper of two neighbouring magnitudes is the answer.
fn takes_upper(rounding: u8, negative: bool, half: Ordering, odd: bool) -> bool {
    match rounding {
        NEAREST => half == Ordering::Greater || half == Ordering::Equal && odd,
        UP => !negative,
        DOWN => negative,
        _ => false,
    }
}

/// The exact magnitude as n units of 2^u and the rest, n with at most the bits of a
/// significand and as large as u not below the smallest number's allows.
#[inline(always)]
fn exact(format: Format, operation: u8, magnitude: u64) -> (u64, i32, Rest) {
    let (m, q) = format.normal(magnitude);
    let f = format.fraction as i32;
    let (power, m) = (m == 1 << f, m as u128);
    let (n, u, rest) = match operation {
        RECIPROCAL => {
            // 2^-q / m is 2^k / m units of 2^(-q - k).
            let k = if power { 2 * f } else { 2 * f + 1 };
            let u = (-q - k).max(format.least());
            let (n, remainder) = quotient((-q - u) as u32, m);
            (n, u, (remainder != 0).then(|| (2 * remainder).cmp(&m)))
        }
        ROOT => {
            // m * 2^q is the square of sqrt(m * 2^k) units of 2^((q - k) / 2), q - k even.
            let k = f + (q - f).rem_euclid(2);
            let (n, rest) = half_root(m << (k + 2), false);
            (n, (q - k) / 2, rest)
        }
        _ => {
            // 2^-q / m is the square of sqrt(2^k / m) units of 2^(-(q + k) / 2), q + k even.
            let k = 3 * f + 1 + (q + 3 * f + 1).rem_euclid(2);
            let k = if power && k == 3 * f + 2 { 3 * f } else { k };
            let (square, remainder) = quotient(k as u32 + 2, m);
            let (n, rest) = half_root(square, remainder != 0);
            (n, -(q + k) / 2, rest)
        }
    };
    (n as u64, u, rest)
}

#[inline(always)]
fn rounded(format: Format, operation: u8, rounding: u8, negative: bool, magnitude: u64) -> (u64, u8) {
    let (n, u, rest) = exact(format, operation, magnitude);
    let (f, one) = (format.fraction, 1 << format.fraction);
    assert!(n < 2 * one && (n >= one || u == format.least()));
    let up = rest.is_some_and(|half| takes_upper(rounding, negative, half, n % 2 == 1));
    let mut flags = if rest.is_some() { INEXACT } else { 0 };
    // Below the smallest normal number, 2^-126 or 2^-1022, the units are the smallest
    // number and fewer than those of a significand.
    if rest.is_some() && n < one {
        flags |= UNDERFLOW;
    }
    // n units of 2^u rounded with an unbounded exponent against 2^128 or 2^1024.
    let last = format.top() - f as i32;
    if u > last || u == last && n + up as u64 == 2 * one {
        let infinite = takes_upper(rounding, negative, Ordering::Greater, false);
        return (if infinite { format.infinity() } else { format.largest() }, OVERFLOW | INEXACT);
    }
    // The pattern after n units of 2^u is always that of n + 1 units.
    let exponent = if n < one { 0 } else { (u - format.least() + 1) as u64 };
    ((exponent << f | n & (one - 1)) + up as u64, flags)
}

/// The answer and the flags of a NaN, a negative operand of a root, a zero or an infinity.
#[inline(always)]
fn special(format: Format, operation: u8, bits: u64) -> Option<(u64, u8)> {
    let sign = bits & format.sign();
    let magnitude = bits & !format.sign();
    if magnitude > format.infinity() {
        let quiet = bits >> (format.fraction - 1) & 1 == 1;
        Some((format.nan(), if quiet { 0 } else { INVALID }))
    } else if sign != 0 && magnitude != 0 && operation != RECIPROCAL {
        Some((format.nan(), INVALID))
    } else if magnitude == 0 {
        Some(match operation {
            ROOT => (bits, 0),
            _ => (sign | format.infinity(), DIVISION_BY_ZERO),
        })
    } else if magnitude == format.infinity() {
        Some(match operation {
            ROOT => (format.infinity(), 0),
            _ => (sign, 0),
        })
    } else {
        None
    }
}

/// What is asked of both formats, and with the first "no" its number; then the answer,
/// unless the format's own questions refuse it.
#[inline(always)]
fn operate(
    format: Format,
    operation: u8,
    rounding: u8,
    bits: u64,
    status: u8,
    refusal: impl FnOnce(bool) -> u8,
) -> (u8, u64, u8) {
    if !(1..=3).contains(&operation) {
        return (1, 0, status);
    }
    if rounding > 3 {
        return (2, 0, status);
    }
    let special = special(format, operation, bits);
    let refusal = refusal(special.is_some());
    if refusal != 0 {
        return (refusal, 0, status);
    }
    let (answer, flags) = special.unwrap_or_else(|| {
        let sign = bits & format.sign();
        let (pattern, flags) = rounded(format, operation, rounding, sign != 0, bits & !format.sign());
        (sign | pattern, flags)
    });
    (0, answer, status & ALL_FLAGS | flags)
}

pub fn binary32(operation: u8, rounding: u8, bits: u32, status: u8) -> (u8, u32, u8) {
    let (refusal, answer, status) = operate(BINARY32, operation, rounding, bits as u64, status, |_| 0);
    (refusal, answer as u32, status)
}

/// Where the entry stands that a root of a positive finite operand uses.
pub fn place_of(operation: u8, bits: u64) -> usize {
    let (m, q) = BINARY64.normal(bits);
    place(operation, m, q.rem_euclid(2) as u8)
}

pub fn binary64(operation: u8, rounding: u8, bits: u64, status: u8, slice: &[u64]) -> (u8, u64, u8) {
    operate(BINARY64, operation, rounding, bits, status, |special| match operation {
        RECIPROCAL => 0,
        _ => tables_refusal(slice, (!special).then(|| place_of(operation, bits))),
    })
}

// -------------------------------------------------------------- Map and list

/// Of a map, and of document 01's lists.
pub const TRAILER: usize = 16;
/// Of the lists written since #102.
pub const LIST_TRAILER: usize = 18;

fn four(bytes: &[u8], at: usize) -> [u8; 4] {
    bytes[at..at + 4].try_into().unwrap()
}

fn i32_at(bytes: &[u8], at: usize) -> i32 {
    i32::from_le_bytes(four(bytes, at))
}

fn u16_at(bytes: &[u8], at: usize) -> u16 {
    u16::from_le_bytes([bytes[at], bytes[at + 1]])
}

/// The last bytes, this many, if the letters stand at their front.
fn trailer<'a>(bytes: &'a [u8], letters: &[u8; 4], length: usize) -> Option<&'a [u8]> {
    let end = &bytes[bytes.len().checked_sub(length)?..];
    end.starts_with(letters).then_some(end)
}

/// The distance back, and w, d, step and radius, of a trailer.
fn fields(end: &[u8]) -> (usize, [usize; 4]) {
    let distance = u32::from_le_bytes(four(end, 4)) as usize;
    (distance, [8, 10, 12, 14].map(|at| u16_at(end, at) as usize))
}

pub fn record_count(w: usize, d: usize) -> usize {
    (w - 2) * (d - 2)
}

pub fn list_length(w: usize, d: usize) -> usize {
    12 * record_count(w, d) + LIST_TRAILER
}

/// component * radius / sqrt(square), rounded once.
fn offset(rounding: u8, component: i64, radius: u64, square: u64) -> i32 {
    let negative = component < 0;
    let t = component.unsigned_abs() as u128 * radius as u128;
    let q = square as u128;
    let low = (t * t / q).isqrt();
    let mut magnitude = low as i32;
    if low * low * q != t * t {
        let half = (4 * t * t).cmp(&((2 * low + 1) * (2 * low + 1) * q));
        magnitude += takes_upper(rounding, negative, half, low % 2 == 1) as i32;
    }
    if negative {
        -magnitude
    } else {
        magnitude
    }
}

/// Question 7 or 8 if it is answered "no", else 0.
fn sizes_refusal([w, d, step, radius]: [usize; 4]) -> u8 {
    if !(3..=64).contains(&w) || !(3..=64).contains(&d) {
        return 7;
    }
    if !(1..=10_000).contains(&step) || !(1..=12_500).contains(&radius) {
        return 8;
    }
    0
}

/// The first question of 2 and 5 to 11 that is answered "no", or 0.
fn list_refusal(rounding: u8, map: &[u8], room: usize) -> u8 {
    if rounding > 3 {
        return 2;
    }
    if map.len() < TRAILER {
        return 5;
    }
    let Some(end) = trailer(map, b"PLT1", TRAILER) else {
        return 6;
    };
    let (distance, sizes) = fields(end);
    if sizes_refusal(sizes) != 0 {
        return sizes_refusal(sizes);
    }
    let [w, d, ..] = sizes;
    if distance != 4 * w * d || map.len() != distance + TRAILER {
        return 9;
    }
    if !(0..w * d).all(|k| (-50_000..=50_000).contains(&i32_at(map, 4 * k))) {
        return 10;
    }
    if room < list_length(w, d) {
        return 11;
    }
    0
}

/// One centre per inner point of an accepted map, row by row.
pub fn centres(rounding: u8, map: &[u8]) -> Vec<[i32; 3]> {
    let (_, [w, d, step, radius]) = fields(&map[map.len() - TRAILER..]);
    let (step, radius) = (step as i64, radius as u64);
    let height = |c: usize, row: usize| i32_at(map, 4 * (row * w + c));
    let mut centres = Vec::new();
    for row in 1..d - 1 {
        for c in 1..w - 1 {
            let dx = (height(c + 1, row) - height(c - 1, row)) as i64;
            let dy = (height(c, row + 1) - height(c, row - 1)) as i64;
            let square = (dx * dx + dy * dy + 4 * step * step) as u64;
            let x = c as i32 * step as i32 + offset(rounding, -dx, radius, square);
            let y = row as i32 * step as i32 + offset(rounding, -dy, radius, square);
            let z = height(c, row) + offset(rounding, 2 * step, radius, square);
            centres.push([x, y, z]);
        }
    }
    centres
}

/// The same centres with z lifted over the nine heights round each point (02, #104). A
/// height counts where its level distance from the centre is below the radius.
pub fn lifted_centres(rounding: u8, map: &[u8]) -> Vec<[i32; 3]> {
    let (_, [w, _, step, radius]) = fields(&map[map.len() - TRAILER..]);
    let mut centres = centres(rounding, map);
    for (index, [x, y, z]) in centres.iter_mut().enumerate() {
        let (left, above) = (index % (w - 2), index / (w - 2));
        for (row, c) in (above..above + 3).flat_map(|row| (left..left + 3).map(move |c| (row, c))) {
            let across = (*x as i64 - (c * step) as i64).unsigned_abs();
            let along = (*y as i64 - (row * step) as i64).unsigned_abs();
            let level = across * across + along * along;
            let Some(rest @ 1..) = (radius as u64 * radius as u64).checked_sub(level) else {
                continue;
            };
            // The root of the rest, rounded up.
            let mut rise = rest.isqrt();
            rise += (rise * rise < rest) as u64;
            *z = (*z).max(i32_at(map, 4 * (row * w + c)) + rise as i32);
        }
    }
    centres
}

/// Refusal and length.
pub fn list(rounding: u8, map: &[u8], list: &mut [u8]) -> (u8, u32) {
    write_list(centres, rounding, map, list)
}

pub fn lifted_list(rounding: u8, map: &[u8], list: &mut [u8]) -> (u8, u32) {
    write_list(lifted_centres, rounding, map, list)
}

fn write_list(
    centres: fn(u8, &[u8]) -> Vec<[i32; 3]>,
    rounding: u8,
    map: &[u8],
    list: &mut [u8],
) -> (u8, u32) {
    let refusal = list_refusal(rounding, map, list.len());
    if refusal != 0 {
        return (refusal, 0);
    }
    let numbers = centres(rounding, map).concat();
    let mut made: Vec<u8> = numbers.iter().flat_map(|number| number.to_le_bytes()).collect();
    let distance = made.len() as u32;
    made.extend(b"CUT2");
    made.extend(distance.to_le_bytes());
    made.extend(&map[map.len() - 8..]);
    made.extend((rounding as u16).to_le_bytes());
    list[..made.len()].copy_from_slice(&made);
    (0, made.len() as u32)
}

// ------------------------------------------ Read a list back (02, #101, #102)

/// Refusal; the rounding, if it is known; w, d, step and radius; x, y and z.
pub type Reading = (u8, Option<u8>, [u32; 4], [i32; 3]);

/// What the reader gives after a refusal.
pub fn refused(number: u8) -> Reading {
    (number, None, [0; 4], [0; 3])
}

/// Of document 01's kind, or else of #102's.
fn list_trailer(list: &[u8]) -> Option<&[u8]> {
    trailer(list, b"CUT1", TRAILER).or_else(|| trailer(list, b"CUT2", LIST_TRAILER))
}

/// The rounding that a list's trailer states, if it has a place for one.
fn stated_rounding(end: &[u8]) -> Option<u16> {
    (end.len() == LIST_TRAILER).then(|| u16_at(end, 16))
}

/// The first question of 5, 12, 7, 8, 13 and 2 that is answered "no", or 0.
fn reader_refusal(list: &[u8]) -> u8 {
    if list.len() < TRAILER {
        return 5;
    }
    let Some(end) = list_trailer(list) else {
        return 12;
    };
    let (distance, sizes) = fields(end);
    if sizes_refusal(sizes) != 0 {
        return sizes_refusal(sizes);
    }
    let [w, d, ..] = sizes;
    if distance != 12 * record_count(w, d) || list.len() != distance + end.len() {
        return 13;
    }
    if stated_rounding(end).is_some_and(|rounding| rounding > 3) {
        return 2;
    }
    0
}

pub fn record(list: &[u8], index: usize) -> Reading {
    let refusal = reader_refusal(list);
    if refusal != 0 {
        return refused(refusal);
    }
    let end = list_trailer(list).unwrap();
    let (_, sizes) = fields(end);
    if index >= record_count(sizes[0], sizes[1]) {
        return refused(14);
    }
    let rounding = stated_rounding(end).map(|rounding| rounding as u8);
    let numbers = [0, 4, 8].map(|at| i32_at(list, 12 * index + at));
    (0, rounding, sizes.map(|size| size as u32), numbers)
}
