//! The list call and the lifted one on a 64 x 64 map beside a Rust program that
//! takes the machine's float root and corrects it by whole numbers. Both ask every
//! question at the door and write the whole list.

use std::hint::black_box;

use plate_tests::calls::{lifted_list, list};
use plate_tests::chance::Chance;

use crate::timing::{compare, side, Side, ROUNDS};

/// The list of a 64 x 64 map.
const LENGTH: usize = 12 * 62 * 62 + 18;

/// t / sqrt(square) floored, root being the machine's root of square. The float
/// quotient is off by less than 10^-11, so its whole part by at most one. All
/// products stay below 2^64: t is up to 1.25 * 10^9, square up to 2.04 * 10^10
/// and the quotient up to 12,500.
#[inline(always)]
fn floored(t: u64, square: u64, root: f64) -> u64 {
    let n = (t as f64 / root) as i32 as u64;
    let n = n - (n * n * square > t * t) as u64;
    n + ((n + 1) * (n + 1) * square <= t * t) as u64
}

#[inline(always)]
fn offset(rounding: u8, component: i32, radius: u32, square: u64, root: f64) -> i32 {
    let t = component.unsigned_abs() as u64 * radius as u64;
    let n = floored(t, square, root);
    let negative = component < 0;
    let up = match rounding {
        0 => {
            let middle = (2 * n + 1) * (2 * n + 1) * square;
            (4 * t * t > middle) | ((4 * t * t == middle) & (n % 2 == 1))
        }
        1 => !negative & (n * n * square != t * t),
        2 => negative & (n * n * square != t * t),
        _ => false,
    };
    let magnitude = n as i32 + up as i32;
    let sign = -(negative as i32);
    (magnitude ^ sign) - sign
}

#[inline(always)]
fn squared(n: i32) -> i64 {
    n as i64 * n as i64
}

/// The root of n, rounded up.
#[inline(always)]
fn root_up(n: i64) -> i32 {
    let m = (n as f64).sqrt() as i32 as i64;
    let m = m - (m * m > n) as i64;
    let m = m + ((m + 1) * (m + 1) <= n) as i64;
    (m + (m * m < n) as i64) as i32
}

/// z lifted over the nine heights, three rows of three. The centre is x and y away
/// from the middle one's place.
#[inline(always)]
fn lifted(rows: [&[i32]; 3], [x, y, z]: [i32; 3], step: i32, radius: i32) -> i32 {
    let mut z = z;
    for (row, along) in rows.into_iter().zip([y + step, y, y - step]) {
        for (height, across) in row.iter().zip([x + step, x, x - step]) {
            let rest = squared(radius) - squared(across) - squared(along);
            if rest > 0 {
                z = z.max(height + root_up(rest));
            }
        }
    }
    z
}

/// The whole call. Not inlined, since the library's is not either.
#[inline(never)]
fn float_root<const LIFT: bool>(rounding: u8, map: &[u8], list: &mut [u8]) -> u64 {
    match rounding {
        0 => rounded::<0, LIFT>(map, list),
        1 => rounded::<1, LIFT>(map, list),
        2 => rounded::<2, LIFT>(map, list),
        3 => rounded::<3, LIFT>(map, list),
        _ => 2 << 40,
    }
}

fn rounded<const ROUNDING: u8, const LIFT: bool>(map: &[u8], list: &mut [u8]) -> u64 {
    let Some((body, trailer)) = map.split_last_chunk::<16>() else {
        return 5 << 40;
    };
    if !trailer.starts_with(b"PLT1") {
        return 6 << 40;
    }
    let size = |at: usize| u16::from_le_bytes([trailer[at], trailer[at + 1]]) as usize;
    let (w, d, step, radius) = (size(8), size(10), size(12), size(14));
    if !(3..=64).contains(&w) || !(3..=64).contains(&d) {
        return 7 << 40;
    }
    if !(1..=10_000).contains(&step) || !(1..=12_500).contains(&radius) {
        return 8 << 40;
    }
    let distance = u32::from_le_bytes([trailer[4], trailer[5], trailer[6], trailer[7]]);
    if distance as usize != 4 * w * d || body.len() != 4 * w * d {
        return 9 << 40;
    }
    let mut heights = [0i32; 64 * 64];
    let mut all_in = true;
    for (height, bytes) in heights.iter_mut().zip(body.chunks_exact(4)) {
        *height = i32::from_le_bytes(bytes.try_into().unwrap());
        all_in &= (-50_000..=50_000).contains(height);
    }
    if !all_in {
        return 10 << 40;
    }
    let records = 12 * (w - 2) * (d - 2);
    let Some(list) = list.get_mut(..records + 18) else {
        return 11 << 40;
    };
    let (records, end) = list.split_at_mut(records);
    let rows = records.chunks_exact_mut(12 * (w - 2));
    for (row, line) in rows.enumerate().map(|(k, line)| (k + 1, line)) {
        let above = &heights[(row - 1) * w..row * w];
        let middle = &heights[row * w..(row + 1) * w];
        let below = &heights[(row + 1) * w..(row + 2) * w];
        for (c, record) in line.chunks_exact_mut(12).enumerate().map(|(k, r)| (k + 1, r)) {
            let dx = middle[c + 1] - middle[c - 1];
            let dy = below[c] - above[c];
            let up = 2 * step as i32;
            let square = (squared(dx) + squared(dy) + squared(up)) as u64;
            let root = (square as f64).sqrt();
            let at = |component| offset(ROUNDING, component, radius as u32, square, root);
            let (x, y) = (at(-dx), at(-dy));
            let mut z = middle[c] + at(up);
            if LIFT {
                let rows = [above, middle, below].map(|row| &row[c - 1..c + 2]);
                z = lifted(rows, [x, y, z], step as i32, radius as i32);
            }
            record[0..4].copy_from_slice(&((c * step) as i32 + x).to_le_bytes());
            record[4..8].copy_from_slice(&((row * step) as i32 + y).to_le_bytes());
            record[8..12].copy_from_slice(&z.to_le_bytes());
        }
    }
    end[0..4].copy_from_slice(b"CUT2");
    end[4..8].copy_from_slice(&(records.len() as u32).to_le_bytes());
    end[8..16].copy_from_slice(&trailer[8..16]);
    end[16..18].copy_from_slice(&(ROUNDING as u16).to_le_bytes());
    (records.len() + 18) as u64
}

fn make_map(w: i64, d: i64, step: u16, radius: u16, height: impl FnMut((i64, i64)) -> i64) -> Vec<u8> {
    let places = (0..d).flat_map(|row| (0..w).map(move |c| (c, row)));
    let mut map: Vec<u8> = places.map(height).flat_map(|z| (z as i32).to_le_bytes()).collect();
    let distance = map.len() as u32;
    map.extend(b"PLT1");
    map.extend(distance.to_le_bytes());
    for size in [w as u16, d as u16, step, radius] {
        map.extend(size.to_le_bytes());
    }
    map
}

pub fn run() {
    let mut chance = Chance(13);
    // A plate 18 mm high on a 6 mm grid, with a grain of a tenth of a millimetre.
    let arch = |k: i64| k * (63 - k) * 9_000 / 992;
    let plate = make_map(64, 64, 6_000, 6_000, |(c, row)| arch(c) + arch(row) + chance.range(-100, 100));
    let rough = make_map(64, 64, 1_000, 12_500, |_| chance.range(-50_000, 50_000));
    let flat = make_map(64, 64, 6_000, 6_000, |_| 0);

    println!(
        "list: ns a call, 64 x 64 map of 16,400 bytes, list of {LENGTH} bytes, best of {ROUNDS} rounds;\n\
         \x20 ratio is unit / other. Neither side's buffer is cleared between calls, except\n\
         \x20 in the lines \"cleared\", where both are filled with zeros inside the timed call.\n\
         \x20 In the lines \"lifted\" both write the lifted list, and \"first\" is the unit's\n\
         \x20 first call"
    );
    for (name, map) in [("plate", &plate), ("rough", &rough), ("flat", &flat)] {
        for (rounding, of) in ["nearest", "up", "down", "toward zero"].iter().enumerate() {
            let rounding = rounding as u8;
            check(list, float_root::<false>, rounding, map, &mut chance);
            check(lifted_list, float_root::<true>, rounding, map, &mut chance);
            let side = |name, call, clear| timed(name, call, rounding, map, clear);
            let sides = |clear| vec![side("unit", list, clear), side("float root", float_root::<false>, clear)];
            compare(&format!("{name}, {of}"), 1, sides(false));
            if rounding == 0 && name == "plate" {
                compare(&format!("{name}, {of}, cleared"), 1, sides(true));
            }
            let sides = [("unit", lifted_list as Call), ("first", list), ("float root", float_root::<true>)];
            let sides = sides.map(|(name, call)| side(name, call, false));
            compare(&format!("{name}, {of}, lifted"), 1, sides.into());
        }
    }
    println!();
}

type Call = fn(u8, &[u8], &mut [u8]) -> u64;

/// A call over and over on a buffer of its own.
fn timed<'a>(name: &'static str, call: Call, rounding: u8, map: &'a [u8], clear: bool) -> Side<'a> {
    let mut list = vec![0; LENGTH];
    side(name, move || {
        if clear {
            list.fill(0);
        }
        black_box(call(black_box(rounding), black_box(map), black_box(&mut list)));
    })
}

/// Both sides on the same map and the same bytes, byte for byte, and on many
/// small maps.
fn check(unit: Call, float_root: Call, rounding: u8, map: &[u8], chance: &mut Chance) {
    let mut both = |map: &[u8], room: usize| {
        let lent = chance.bytes(room);
        let (mut left, mut right) = (lent.clone(), lent);
        assert_eq!(unit(rounding, map, &mut left), float_root(rounding, map, &mut right));
        assert!(left == right, "the lists differ");
    };
    both(map, LENGTH + 5);
    let mut other = Chance(14);
    for _ in 0..300 {
        let (w, d) = (other.range(3, 12), other.range(3, 12));
        let (step, radius) = (other.range(1, 10_000) as u16, other.range(1, 12_500) as u16);
        let top = other.pick(&[2, 100, 50_000]);
        let small = make_map(w, d, step, radius, |_| other.range(-top, top));
        both(&small, (12 * (w - 2) * (d - 2) + 18) as usize);
    }
}
