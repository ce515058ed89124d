//! plate_list and plate_lifted_list against the rules of documents 01 and 02 in plain
//! Rust: cargo test --release --test list

use plate_tests::chance::Chance;
use plate_tests::maps::{damage, some_map, Map};
use plate_tests::reference::{self, DOWN, LIST_TRAILER, TRAILER, UP};
use plate_tests::{calls, pack, vectors};

const GUARD: usize = 32;

type Library = fn(u8, &[u8], &mut [u8]) -> u64;
type Reference = fn(u8, &[u8], &mut [u8]) -> (u8, u32);

/// The list call of document 01 and the lifted one.
const CALLS: [(&str, Library, Reference); 2] =
    [("list", calls::list, reference::list), ("lifted list", calls::lifted_list, reference::lifted_list)];

/// Calls the library with a buffer that holds these bytes. The map and the bytes
/// on both sides of the buffer must be as before.
fn call(library: Library, rounding: u8, map: &[u8], list: &mut [u8]) -> u64 {
    let before = map.to_vec();
    let mut guarded = vec![0xA5; list.len() + 2 * GUARD];
    guarded[GUARD..GUARD + list.len()].copy_from_slice(list);
    let given = library(rounding, map, &mut guarded[GUARD..GUARD + list.len()]);
    assert!(map == before, "the map was written");
    let (front, rest) = guarded.split_at(GUARD);
    let (middle, behind) = rest.split_at(list.len());
    assert!(front.iter().chain(behind).all(|&x| x == 0xA5), "written beside the buffer");
    list.copy_from_slice(middle);
    given
}

/// The library and the reference on the same buffer, in both calls; gives the refusal,
/// which is the same of both.
fn check(rounding: u8, map: &[u8], lent: &[u8]) -> u8 {
    let [refusal, lifted] = CALLS.map(|(name, library, reference)| {
        let mut expected = lent.to_vec();
        let (refusal, length) = reference(rounding, map, &mut expected);
        let mut list = lent.to_vec();
        let given = call(library, rounding, map, &mut list);
        let about = || {
            let end = &map[map.len().saturating_sub(TRAILER)..];
            let (length, room) = (map.len(), lent.len());
            format!("{name}, rounding {rounding}, {length} bytes of map, trailer {end:?}, room {room}")
        };
        assert_eq!(given, pack(refusal, 0, length), "{}", about());
        if let Some(at) = (0..list.len()).find(|&at| list[at] != expected[at]) {
            panic!("byte {at} of the buffer: {} for {}; {}", list[at], expected[at], about());
        }
        refusal
    });
    assert_eq!(refusal, lifted);
    refusal
}

/// The whole list of an accepted map, in a buffer that holds just it.
fn whole(library: Library, rounding: u8, map: &Map) -> Vec<u8> {
    let mut list = vec![0x5A; map.length()];
    assert_eq!(call(library, rounding, &map.bytes(), &mut list), pack(0, 0, map.length() as u32));
    list
}

/// The x, y and z of each record.
fn records(list: &[u8]) -> Vec<[i64; 3]> {
    let entry = |record: &[u8], at: usize| i32::from_le_bytes(record[at..at + 4].try_into().unwrap()) as i64;
    let records = list[..list.len() - LIST_TRAILER].chunks_exact(12);
    records.map(|record| [0, 4, 8].map(|at| entry(record, at))).collect()
}

/// Damages a map in one of many ways; a few leave it acceptable.
fn damage_map(chance: &mut Chance, map: &mut Vec<u8>) {
    match chance.range(0, 10) {
        kind @ 0..=8 => damage(chance, kind, TRAILER, map),
        _ => {
            let height = chance.pick(&[50_000, 50_001, -50_000, -50_001, i32::MAX, i32::MIN, 65_536]);
            let heights = (map.len() - TRAILER) / 4;
            let inside = chance.range(0, heights as i64 - 1) as usize;
            let place = 4 * chance.pick(&[0, heights - 1, inside]);
            map[place..place + 4].copy_from_slice(&height.to_le_bytes());
        }
    }
}

/// Lengths of a buffer round the right one. Two bytes fewer held the list before #102.
fn some_room(chance: &mut Chance, length: usize) -> usize {
    match chance.range(0, 9) {
        0 => 0,
        1 => chance.range(0, length as i64 - 1) as usize,
        2 => length - 1,
        3 => length - 2,
        4 => length + 1,
        5 => length + chance.range(0, 300) as usize,
        _ => length,
    }
}

#[test]
fn random_maps() {
    let mut chance = Chance(3);
    let mut refused = [0; 12];
    for _ in 0..12_000 {
        let map = some_map(&mut chance);
        let bytes = map.bytes();
        let room = some_room(&mut chance, map.length());
        for rounding in 0..4 {
            let lent = chance.bytes(room);
            let refusal = check(rounding, &bytes, &lent);
            assert_eq!(refusal, if room < map.length() { 11 } else { 0 });
            refused[refusal as usize] += 1;
        }
    }
    println!("calls by refusal: {refused:?}");
}

/// Damaged once or more, in all roundings and some that do not exist.
#[test]
fn damaged_maps() {
    let mut chance = Chance(4);
    let mut refused = [0; 12];
    for _ in 0..20_000 {
        let map = some_map(&mut chance);
        let mut bytes = map.bytes();
        for _ in 0..chance.pick(&[1, 1, 2, 3]) {
            if bytes.len() >= 20 {
                damage_map(&mut chance, &mut bytes);
            }
        }
        let room = some_room(&mut chance, map.length());
        let lent = chance.bytes(room);
        let rounding = chance.pick(&[0, 1, 2, 3, 4, 255]);
        refused[check(rounding, &bytes, &lent) as usize] += 1;
    }
    println!("calls by refusal: {refused:?}");
    for number in [0, 2, 5, 6, 7, 8, 9, 10, 11] {
        assert!(refused[number] > 0, "no call was refused with {number}");
    }
}

/// Every length of a buffer from nothing to well past the list.
#[test]
fn every_room() {
    let mut chance = Chance(5);
    for _ in 0..40 {
        let mut map = some_map(&mut chance);
        while map.length() > 400 {
            map = some_map(&mut chance);
        }
        for room in 0..map.length() + 40 {
            let lent = chance.bytes(room);
            check(chance.range(0, 3) as u8, &map.bytes(), &lent);
        }
    }
}

/// Every length of a map up to the whole, cut at the front and behind, and every
/// bit of a map turned.
#[test]
fn every_cut_and_bit() {
    let mut chance = Chance(6);
    for (w, d) in [(3, 3), (4, 3), (5, 6)] {
        let heights = (0..w * d).map(|_| chance.range(-3000, 3000) as i32).collect();
        let map = Map { w, d, step: 700, radius: 6000, heights };
        let bytes = map.bytes();
        let lent = chance.bytes(map.length() + 5);
        for cut in 0..=bytes.len() {
            check(0, &bytes[cut..], &lent);
            check(0, &bytes[..cut], &lent);
        }
        for bit in 0..8 * bytes.len() {
            let mut turned = bytes.clone();
            turned[bit / 8] ^= 1 << (bit % 8);
            check((bit % 4) as u8, &turned, &lent);
        }
    }
}

/// Demand 3 for lists, by its own words. Since #102 the records are judged, and the
/// trailers differ in the rounding alone. Since #104 it is said of the first call.
#[test]
fn down_and_up() {
    let mut chance = Chance(7);
    let mut equal = 0;
    for _ in 0..3_000 {
        let map = some_map(&mut chance);
        let lists = [DOWN, UP].map(|rounding| whole(calls::list, rounding, &map));
        let height = |c: usize, row: usize| map.heights[row * map.w + c] as i64;
        let step = map.step as i64;
        let mut exact = true;
        for row in 1..map.d - 1 {
            for c in 1..map.w - 1 {
                let dx = height(c + 1, row) - height(c - 1, row);
                let dy = height(c, row + 1) - height(c, row - 1);
                let square = dx * dx + dy * dy + 4 * step * step;
                let root = square.isqrt();
                exact &= root * root == square
                    && [dx, dy, 2 * step].iter().all(|n| n * map.radius as i64 % root == 0);
            }
        }
        let [(lower, down), (upper, up)] =
            lists.each_ref().map(|list| list.split_at(map.length() - LIST_TRAILER));
        assert_eq!(lower == upper, exact);
        equal += exact as u32;
        let [below, above] = lists.each_ref().map(|list| records(list).concat());
        assert!(below.iter().zip(&above).all(|(below, above)| (0..=1).contains(&(above - below))));
        assert_eq!(down[..16], up[..16]);
        assert_eq!((&down[16..], &up[16..]), (&[DOWN, 0][..], &[UP, 0][..]));
    }
    println!("{equal} of 3000 maps had equal records");
    assert!(0 < equal && equal < 3000);
}

/// #104 by its own words, on what the library wrote: x, y and the trailer are those of
/// the first call; z meets the nine heights and is not below the first z, and one less
/// would miss one of these.
#[test]
fn least_z() {
    let mut chance = Chance(8);
    let (mut lifted, mut all) = (0, 0);
    for _ in 0..6_000 {
        let map = some_map(&mut chance);
        let rounding = chance.range(0, 3) as u8;
        let [before, after] = CALLS.map(|(_, library, _)| whole(library, rounding, &map));
        let front = map.length() - LIST_TRAILER;
        assert_eq!(before[front..], after[front..]);
        let (step, square) = (map.step as i64, (map.radius as i64).pow(2));
        for (index, (first, record)) in records(&before).iter().zip(records(&after)).enumerate() {
            let [x, y, z] = record;
            assert_eq!(first[..2], record[..2]);
            let (left, above) = (index % (map.w - 2), index / (map.w - 2));
            let met = |z: i64| {
                z >= first[2] && (0..9).all(|k| {
                    let (c, row) = (left + k % 3, above + k / 3);
                    let rest = square - (x - c as i64 * step).pow(2) - (y - row as i64 * step).pow(2);
                    let over = z - map.heights[row * map.w + c] as i64;
                    rest <= 0 || over >= 0 && over * over >= rest
                })
            };
            assert!(met(z) && !met(z - 1), "record {index}, rounding {rounding}, z {z}");
            lifted += (z > first[2]) as u32;
            all += 1;
        }
    }
    println!("{lifted} of {all} records were lifted");
    assert!(0 < lifted && lifted < all);
}

/// The two lifted lists are in no order. On this map the lower x is 1, and the left
/// height, at level distance 1, asks for 1 plus the root of 3; the upper x is 2, and the
/// left height is at level distance 2, the radius, and does not count. So the lower list
/// has z 3 and the upper one 2. Before the lift they have 1 and 2.
#[test]
fn lower_above_upper() {
    let map = Map { w: 3, d: 3, step: 1, radius: 2, heights: vec![0, 0, 0, 1, 0, 0, 0, 0, 0] };
    let both = |library| [DOWN, UP].map(|rounding| records(&whole(library, rounding, &map)));
    assert_eq!(both(calls::list), [[[1, 1, 1]], [[2, 1, 2]]]);
    assert_eq!(both(calls::lifted_list), [[[1, 1, 3]], [[2, 1, 2]]]);
}

/// The file that the reference program in Python made, against both.
#[test]
fn vector_file() {
    for (number, frame) in vectors::frames().iter().enumerate() {
        for ((name, library, reference), expected) in CALLS.iter().zip(&frame.expected) {
            for (rounding, expected) in expected.iter().enumerate() {
                let about = format!("{name}, frame {number}, rounding {rounding}");
                let mut list = vectors::lent(frame.room);
                let (refusal, length) = reference(rounding as u8, &frame.map, &mut list);
                let got = [refusal as i64, length as i64, vectors::digest(&list)];
                assert_eq!(got, *expected, "reference, {about}");
                let mut list = vectors::lent(frame.room);
                let given = call(*library, rounding as u8, &frame.map, &mut list);
                let got = [(given >> 40) as i64, (given & 0xFF_FFFF_FFFF) as i64, vectors::digest(&list)];
                assert_eq!(got, *expected, "library, {about}");
            }
        }
    }
}
