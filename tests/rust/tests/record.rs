//! plate_record against the rules of documents 01 and 02 in plain Rust:
//! cargo test --release --test record

use std::sync::atomic::{AtomicU64, Ordering};

use plate_tests::chance::Chance;
use plate_tests::maps::{damage, some_map, some_sizes, with_trailer};
use plate_tests::reference::{self, Reading, LIST_TRAILER, TRAILER};
use plate_tests::{calls, pack, vectors, work};

const GUARD: usize = 32;

/// Calls the library with each index. The list and the bytes on both sides of it
/// must be as before, and what stands beside the list must not count.
fn call(list: &[u8], indexes: &[usize]) -> Vec<Reading> {
    let [one, other] = [0, 0xA5].map(|beside| {
        let mut guarded = vec![beside; list.len() + 2 * GUARD];
        guarded[GUARD..GUARD + list.len()].copy_from_slice(list);
        let before = guarded.clone();
        let lent = &guarded[GUARD..GUARD + list.len()];
        let readings: Vec<Reading> = indexes.iter().map(|&index| calls::record(lent, index)).collect();
        assert!(guarded == before, "the list was written");
        readings
    });
    assert_eq!(one, other, "bytes beside the list were read");
    one
}

/// How many calls had each refusal, over all threads.
#[derive(Default)]
struct Refused([AtomicU64; 15]);

impl Refused {
    /// The library and the reference on the same list.
    fn check(&self, list: &[u8], indexes: &[usize]) {
        for (reading, &index) in call(list, indexes).into_iter().zip(indexes) {
            let length = list.len();
            let end = &list[length.saturating_sub(LIST_TRAILER)..];
            let expected = reference::record(list, index);
            assert_eq!(reading, expected, "{length} bytes of list, ending in {end:?}, index {index}");
            self.0[expected.0 as usize].fetch_add(1, Ordering::Relaxed);
        }
    }

    /// Every one of these numbers was given, and no other.
    fn only(&self, numbers: &[usize]) {
        println!("calls by refusal: {:?}", self.0);
        for (number, count) in self.0.iter().enumerate() {
            let given = count.load(Ordering::Relaxed) > 0;
            assert_eq!(given, numbers.contains(&number), "refusal {number}");
        }
    }
}

/// Does the work so many times, each time with a number from 0 and a random generator
/// of its own, so that the threads do not matter.
fn trials(seed: u64, count: u64, work: impl Fn(u64, &mut Chance) + Sync) {
    work::over("lists", count, |part| {
        for k in part {
            work(k, &mut Chance(seed << 32 | k));
        }
        0
    });
}

/// Indexes beyond a list of this many records. Some would find a record in arithmetic
/// of 16, 32 or 64 bits: themselves, or 12 times themselves.
fn beyond(chance: &mut Chance, count: usize) -> Vec<usize> {
    let k = chance.range(0, count as i64 - 1) as usize;
    vec![
        count,
        count + 1,
        chance.pick(&[1 << 16, 1 << 30, 1 << 31, 1 << 32, 1 << 62, 1 << 63]) + k,
        chance.pick(&[u32::MAX as usize, usize::MAX / 12 + 1, isize::MAX as usize, usize::MAX]),
        chance.range(count as i64, i64::MAX / 2) as usize,
    ]
}

/// Indexes of a list and beyond it.
fn some_indexes(chance: &mut Chance, count: usize) -> Vec<usize> {
    let mut indexes = beyond(chance, count);
    indexes.extend([0, count - 1, chance.range(0, count as i64 - 1) as usize]);
    indexes
}

/// Any numbers of so many records, letters of trailers among them.
fn some_numbers(chance: &mut Chance, count: usize) -> Vec<i32> {
    let [cut1, cut2, plt1] = [b"CUT1", b"CUT2", b"PLT1"].map(|letters| i32::from_le_bytes(*letters));
    let edges = [0, 1, -1, 128, -129, 1 << 15, 1 << 16, -1 << 24, i32::MAX, i32::MIN, cut1, cut2, plt1];
    let any = chance.one_in(2);
    (0..3 * count).map(|_| if any { chance.next() as i32 } else { chance.pick(&edges) }).collect()
}

/// No rounding, for a list of document 01's kind; else one of 0 to 3.
fn some_rounding(chance: &mut Chance) -> Option<u16> {
    chance.pick(&[None, None, Some(0), Some(1), Some(2), Some(3)])
}

/// Mostly above 3. One byte of some is not.
fn any_rounding(chance: &mut Chance) -> u16 {
    let any = chance.next() as u16;
    chance.pick(&[3, 4, 5, 255, 256, 257, 259, 512, 768, 1 << 15, u16::MAX, any])
}

/// A list of these numbers: CUT1 without a rounding, CUT2 with one.
fn make_list(numbers: &[i32], sizes: [u16; 4], rounding: Option<u16>) -> Vec<u8> {
    let letters = if rounding.is_some() { b"CUT2" } else { b"CUT1" };
    let mut list = with_trailer(numbers, letters, sizes);
    list.extend(rounding.into_iter().flat_map(u16::to_le_bytes));
    list
}

/// A list that is accepted but for its rounding, and how many records it has.
fn some_list(chance: &mut Chance, rounding: Option<u16>) -> (Vec<u8>, usize) {
    let (w, d, step, radius) = some_sizes(chance);
    let count = reference::record_count(w, d);
    let sizes = [w as u16, d as u16, step as u16, radius as u16];
    (make_list(&some_numbers(chance, count), sizes, rounding), count)
}

/// Damages a list, whose trailer has so many bytes, in one of many ways; a few leave it
/// acceptable.
fn damage_list(chance: &mut Chance, trailer: usize, list: &mut Vec<u8>) {
    let end = list.len();
    let front = end - trailer;
    match chance.range(0, 14) {
        kind @ 0..=8 => damage(chance, kind, trailer, list),
        9 => {
            let bit = chance.range(0, 8 * end as i64 - 1) as usize;
            list[bit / 8] ^= 1 << (bit % 8);
        }
        10 => {
            let letters = chance.pick(&[b"CUT3", b"PLT1", b"cut1", b"cut2", b"1TUC", b"CUT\0"]);
            list[front..front + 4].copy_from_slice(letters);
        }
        11 => {
            // The distance, and now and then the length with it.
            let off = chance.pick(&[1, 2, 4, 12, 16, 24, 256, 1 << 16, 1 << 24, 1 << 31]);
            let distance = u32::from_le_bytes(list[front + 4..front + 8].try_into().unwrap());
            let more = chance.one_in(2);
            let wrong = if more { distance.wrapping_add(off) } else { distance.wrapping_sub(off) };
            list[front + 4..front + 8].copy_from_slice(&wrong.to_le_bytes());
            if chance.one_in(3) && more && off <= 24 {
                let before = chance.bytes(off as usize);
                list.splice(0..0, before);
            }
        }
        12 => {
            // Two neighbours of w, d, step, radius and the rounding exchanged.
            let at = front + 8 + 2 * chance.range(0, (trailer as i64 - 12) / 2) as usize;
            list[at..at + 4].rotate_left(2);
        }
        13 => {
            // The last number: the rounding, or in document 01's kind the radius.
            let rounding = any_rounding(chance);
            list[end - 2..].copy_from_slice(&rounding.to_le_bytes());
        }
        _ => {
            // The letters of a kind, its length, or both.
            let (number, length) = chance.pick(&[(b'1', 16), (b'2', 18), (b'3', 20)]);
            if chance.one_in(2) {
                list[front + 3] = number;
            }
            if chance.one_in(2) {
                list.resize(front + length, 0);
            }
        }
    }
}

/// Any records in lists of any sizes, of both kinds. Every tenth may have any rounding.
#[test]
fn random_lists() {
    let refused = Refused::default();
    trials(9, 20_000, |k, chance| {
        let rounding = if k % 10 == 0 { Some(any_rounding(chance)) } else { some_rounding(chance) };
        let (list, count) = some_list(chance, rounding);
        refused.check(&list, &some_indexes(chance, count));
    });
    refused.only(&[0, 2, 14]);
}

/// Damaged once or more.
#[test]
fn damaged_lists() {
    let refused = Refused::default();
    trials(10, 40_000, |_, chance| {
        let rounding = some_rounding(chance);
        let trailer = if rounding.is_some() { LIST_TRAILER } else { TRAILER };
        let (mut list, count) = some_list(chance, rounding);
        for _ in 0..chance.pick(&[1, 1, 2, 3]) {
            if list.len() >= 20 {
                damage_list(chance, trailer, &mut list);
            }
        }
        refused.check(&list, &some_indexes(chance, count));
    });
    refused.only(&[0, 2, 5, 7, 8, 12, 13, 14]);
}

type ListCall = fn(u8, &[u8], &mut [u8]) -> u64;
type Centres = fn(u8, &[u8]) -> Vec<[i32; 3]>;

/// What either list call wrote is accepted in every rounding, and the rounding and each
/// record come back as written. A list with CUT1 and the same records is accepted too,
/// with every number kept and the rounding unknown.
#[test]
fn written_lists() {
    let calls: [(ListCall, Centres); 2] =
        [(calls::list, reference::centres), (calls::lifted_list, reference::lifted_centres)];
    trials(11, 3_000, |k, chance| {
        let (library, centres) = calls[k as usize % 2];
        let map = some_map(chance);
        let bytes = map.bytes();
        let sizes = [map.w as u32, map.d as u32, map.step as u32, map.radius as u32];
        let count = (map.w - 2) * (map.d - 2);
        for rounding in 0..4 {
            let room = map.length() + chance.pick(&[0, 1, 50]);
            let mut buffer = chance.bytes(room);
            let given = library(rounding, &bytes, &mut buffer);
            assert_eq!(given, pack(0, 0, map.length() as u32));
            let list = &buffer[..given as usize];
            let end = list.len() - LIST_TRAILER;
            let old = [&list[..end], b"CUT1", &list[end + 4..end + TRAILER]].concat();
            let centres = centres(rounding, &bytes);
            assert_eq!(centres.len(), count);
            let every: Vec<usize> = (0..count).collect();
            for (index, reading) in call(list, &every).into_iter().enumerate() {
                let number = |at: usize| i32::from_le_bytes(list[at..at + 4].try_into().unwrap());
                let written = [0, 4, 8].map(|at| number(12 * index + at));
                let expected = (0, Some(rounding), sizes, written);
                assert_eq!(reading, expected, "index {index}, rounding {rounding}");
                assert_eq!(written, centres[index], "index {index}, rounding {rounding}");
            }
            for (index, reading) in call(&old, &every).into_iter().enumerate() {
                let expected = (0, None, sizes, centres[index]);
                assert_eq!(reading, expected, "index {index}, rounding {rounding}, CUT1");
            }
            for list in [list, &old] {
                for reading in call(list, &beyond(chance, count)) {
                    assert_eq!(reading, reference::refused(14), "{count} records, rounding {rounding}");
                }
            }
        }
    });
}

/// Every w and d up to 66, with as many records as (w - 2)(d - 2) where that can be.
#[test]
fn every_width_and_depth() {
    let refused = Refused::default();
    trials(12, 67 * 67, |k, chance| {
        let (w, d) = (k as i64 / 67, k as i64 % 67);
        let count = ((w - 2) * (d - 2)).max(0) as usize;
        let numbers = some_numbers(chance, count);
        let indexes = if count == 0 { vec![0] } else { some_indexes(chance, count) };
        for rounding in [None, Some(chance.range(0, 3) as u16)] {
            refused.check(&make_list(&numbers, [w as u16, d as u16, 1, 1], rounding), &indexes);
        }
    });
    refused.only(&[0, 7, 14]);
}

/// Every step, every radius, every distance of 16 bits and every rounding.
#[test]
fn every_number_of_16_bits() {
    let refused = Refused::default();
    for number in 0..=u16::MAX {
        for rounding in [None, Some(number % 4)] {
            let list = |step, radius| make_list(&[1, -2, 3], [3, 3, step, radius], rounding);
            refused.check(&list(number, 12_500), &[0]);
            refused.check(&list(10_000, number), &[0]);
            let mut list = list(1, 1);
            list[16..18].copy_from_slice(&number.to_le_bytes());
            refused.check(&list, &[0, 1]);
        }
        refused.check(&make_list(&[1, -2, 3], [3, 3, 1, 1], Some(number)), &[0, 1]);
    }
    refused.only(&[0, 2, 8, 13, 14]);
}

/// Every length of a list up to the whole, cut at the front and behind, and every
/// bit of a list turned.
#[test]
fn every_cut_and_bit() {
    let refused = Refused::default();
    let mut chance = Chance(13);
    for (w, d) in [(3, 3), (4, 3), (5, 6)] {
        for rounding in [None, Some(0), Some(3)] {
            let count = reference::record_count(w, d);
            let sizes = [w as u16, d as u16, 700, 6000];
            let list = make_list(&some_numbers(&mut chance, count), sizes, rounding);
            for cut in 0..=list.len() {
                refused.check(&list[cut..], &[0, count - 1, count]);
                refused.check(&list[..cut], &[0, count - 1, count]);
            }
            for bit in 0..8 * list.len() {
                let mut turned = list.clone();
                turned[bit / 8] ^= 1 << (bit % 8);
                refused.check(&turned, &[0, count - 1, count]);
            }
        }
    }
    refused.only(&[0, 2, 5, 7, 8, 12, 13, 14]);
}

/// The file that the reference program in Python made, against both.
#[test]
fn vector_file() {
    for (number, frame) in vectors::record_frames().iter().enumerate() {
        let by_reference: Vec<Reading> =
            frame.indexes.iter().map(|&index| reference::record(&frame.list, index)).collect();
        assert_eq!(by_reference, frame.expected, "reference, frame {number}");
        assert_eq!(call(&frame.list, &frame.indexes), frame.expected, "library, frame {number}");
    }
}
