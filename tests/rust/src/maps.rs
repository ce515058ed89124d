//! What the tests of maps and of lists have in common: accepted maps and sizes,
//! made by chance, and ways to damage them.

use crate::chance::Chance;
use crate::reference;

/// The numbers, then the trailer of a map or a list.
pub fn with_trailer(numbers: &[i32], letters: &[u8; 4], sizes: [u16; 4]) -> Vec<u8> {
    let mut bytes: Vec<u8> = numbers.iter().flat_map(|number| number.to_le_bytes()).collect();
    let distance = bytes.len() as u32;
    bytes.extend(letters);
    bytes.extend(distance.to_le_bytes());
    bytes.extend(sizes.iter().flat_map(|size| size.to_le_bytes()));
    bytes
}

pub struct Map {
    pub w: usize,
    pub d: usize,
    pub step: u16,
    pub radius: u16,
    pub heights: Vec<i32>,
}

impl Map {
    pub fn bytes(&self) -> Vec<u8> {
        with_trailer(&self.heights, b"PLT1", [self.w as u16, self.d as u16, self.step, self.radius])
    }

    pub fn length(&self) -> usize {
        reference::list_length(self.w, self.d)
    }
}

/// Accepted w, d, step and radius: small mostly, now and then up to 64 x 64.
pub fn some_sizes(chance: &mut Chance) -> (usize, usize, i64, i64) {
    let most = chance.pick(&[4, 6, 6, 9, 9, 14, 64]);
    let (w, d) = match chance.range(0, 40) {
        0 => (64, 64),
        1 => (3, 64),
        2 => (64, 3),
        _ => (chance.range(3, most) as usize, chance.range(3, most) as usize),
    };
    let mut step = chance.pick(&[1, 2, 10, 100, 3000, 10_000]);
    let mut radius = chance.pick(&[1, 10, 1000, 12_500]);
    if chance.one_in(2) {
        step = chance.range(1, 10_000);
        radius = chance.range(1, 12_500);
    }
    (w, d, step, radius)
}

/// An accepted map: rough, gentle, steep, an arch or a bowl, or a plane whose normal has
/// a whole length.
pub fn some_map(chance: &mut Chance) -> Map {
    let (w, d, mut step, mut radius) = some_sizes(chance);
    let kind = chance.range(0, 9);
    let mut heights: Vec<i32> = Vec::new();
    if kind == 0 {
        // Normals of whole length, and a radius that its length divides.
        let (a, b, c, t) = chance.pick(&[
            (0, 3, 4, 5), (4, 0, 3, 5), (1, 2, 2, 3), (2, 3, 6, 7), (6, 2, 3, 7),
            (4, 4, 7, 9), (2, 6, 9, 11), (12, 3, 4, 13), (2, 10, 11, 15), (8, 9, 12, 17),
        ]);
        let k = chance.range(1, 30);
        step = c * k;
        radius = t * chance.range(1, 12_500 / t);
        for row in 0..d as i64 {
            heights.extend((0..w as i64).map(|column| ((a * column - b * row) * k) as i32));
        }
        if chance.one_in(3) {
            let place = chance.range(0, heights.len() as i64 - 1) as usize;
            heights[place] += 1;
        }
    } else if kind == 2 {
        // Squares of the ways from the middle, in columns and in rows, down or up: an arch
        // or a bowl, of any width for the radius.
        let rise = chance.pick(&[-1, 1]) * chance.range(1, 50_000) / (w * w + d * d) as i64;
        let square = |k: usize, n: usize| (2 * k as i64 - n as i64 + 1).pow(2);
        for row in 0..d {
            heights.extend((0..w).map(|column| (rise * (square(column, w) + square(row, d))) as i32));
        }
    } else {
        let top = chance.pick(&[0, 1, 2, 10, 300, 5000, 50_000]);
        heights.extend((0..w * d).map(|_| {
            let height = if kind == 1 { top * chance.range(-1, 1) } else { chance.range(-top, top) };
            height as i32
        }));
    }
    Map { w, d, step: step as u16, radius: radius as u16, heights }
}

/// Damages the length of a map or a list or its trailer, which has so many bytes. Kinds
/// 0 to 8: the letters, the distance, each size, bytes in front, bytes behind, bytes
/// missing.
pub fn damage(chance: &mut Chance, kind: i64, trailer: usize, bytes: &mut Vec<u8>) {
    let end = bytes.len();
    let front = end - trailer;
    match kind {
        0 => bytes[front + chance.range(0, 3) as usize] ^= 1 << chance.range(0, 7),
        1 => bytes[front + chance.range(4, 7) as usize] ^= 1 << chance.range(0, 7),
        2..=5 => {
            let size = chance.pick(&[0, 1, 2, 3, 4, 63, 64, 65, 255, 256, 768, 10_000, 10_001, 12_500,
                12_501, 32_768, 32_771, 65_535]);
            let at = front + 8 + 2 * (kind as usize - 2);
            bytes[at..at + 2].copy_from_slice(&(size as u16).to_le_bytes());
        }
        6 => {
            let count = chance.range(1, 20) as usize;
            let before = chance.bytes(count);
            bytes.splice(0..0, before);
        }
        7 => {
            let count = chance.range(1, 20) as usize;
            bytes.extend(chance.bytes(count));
        }
        _ => {
            let count = chance.range(1, end as i64) as usize;
            if chance.one_in(2) {
                bytes.drain(..count);
            } else {
                bytes.truncate(end - count);
            }
        }
    }
}
