//! The package in rust/: its calls with kinds for numbers against plate::numbers and the
//! references, its numbers and sentences against include/plate.h:
//! cargo test --release --test typed

use std::collections::BTreeSet;
use std::error::Error;
use std::fmt::Debug;

use plate::{numbers, Operation, Parity, Record, Refusal, Rounding, Status};
use plate_tests::chance::Chance;
use plate_tests::maps::{damage, some_map, with_trailer, Map};
use plate_tests::reference::{self, tables, BINARY32, BINARY64, LIST_TRAILER, TRAILER};
use plate_tests::pack;
use plate_tests::slices::LENGTHS;

const OPERATIONS: [Operation; 3] = [Operation::Reciprocal, Operation::Root, Operation::InverseRoot];
const ROUNDINGS: [Rounding; 4] = [Rounding::Nearest, Rounding::Up, Rounding::Down, Rounding::TowardZero];
const PARITIES: [Parity; 2] = [Parity::Even, Parity::Odd];

/// An answer, or the number of a refusal.
fn numbered<T>(given: Result<T, Refusal>) -> Result<T, u8> {
    given.map_err(Refusal::number)
}

/// The same of a reply that has both.
fn reply<T>(refusal: u8, answer: T) -> Result<T, u8> {
    if refusal == 0 { Ok(answer) } else { Err(refusal) }
}

// ------------------------------------------------------------------ The header

struct Header(String);

impl Header {
    fn read() -> Header {
        let path = concat!(env!("CARGO_MANIFEST_DIR"), "/../../include/plate.h");
        Header(std::fs::read_to_string(path).unwrap())
    }

    /// Every name that it defines with a value, and the value.
    fn defined(&self) -> impl Iterator<Item = (&str, &str)> {
        self.0.lines().filter_map(|line| {
            let (name, value) = line.strip_prefix("#define ")?.split_once(' ')?;
            Some((name, value.split("/*").next()?.trim()))
        })
    }

    fn value(&self, name: &str) -> &str {
        let mut all = self.defined().filter(|(defined, _)| *defined == name);
        all.next().unwrap_or_else(|| panic!("{name} is not defined")).1
    }

    fn number(&self, name: &str) -> usize {
        self.value(name).parse().unwrap()
    }

    /// The sentence that plate_refusal_words returns behind this text.
    fn sentence(&self, case: &str) -> &str {
        self.0.split_once(case).unwrap().1.split('"').nth(1).unwrap()
    }
}

/// PLATE_TOWARD_ZERO of TowardZero.
fn name(prefix: &str, kind: impl Debug) -> String {
    let mut name = String::from(prefix);
    for (at, letter) in format!("{kind:?}").char_indices() {
        if at > 0 && letter.is_uppercase() {
            name.push('_');
        }
        name.extend(letter.to_uppercase());
    }
    name
}

#[test]
fn constants_of_the_header() {
    let header = Header::read();
    assert_eq!(header.value("PLATE_VERSION"), format!("\"{}\"", plate::VERSION));
    assert_eq!(header.number("PLATE_TABLES"), plate::TABLES);
    assert_eq!(header.number("PLATE_LONGEST_MAP"), plate::LONGEST_MAP);
    assert_eq!(header.value("PLATE_LIST_LENGTH(w,"), "d) (12 * ((w) - 2) * ((d) - 2) + 18)");
    assert_eq!(header.value("PLATE_LONGEST_LIST"), "PLATE_LIST_LENGTH(64, 64)");
    assert_eq!(plate::LONGEST_LIST, plate::list_length(64, 64));
    for (columns, rows) in (3..=64).flat_map(|columns| (3..=64).map(move |rows| (columns, rows))) {
        assert_eq!(plate::list_length(columns, rows), 12 * (columns - 2) * (rows - 2) + 18);
    }
    // No numbers stop the program.
    assert_eq!(plate::list_length(0, 1), 18);
    assert_eq!(plate::list_length(usize::MAX, usize::MAX), usize::MAX);
}

#[test]
fn kinds_of_the_header() {
    let header = Header::read();
    for operation in OPERATIONS {
        assert_eq!(header.number(&name("PLATE_", operation)), operation as usize);
    }
    for rounding in ROUNDINGS {
        assert_eq!(header.number(&name("PLATE_", rounding)), rounding as usize);
    }
    assert_eq!(PARITIES.map(|parity| parity as u8), [0, 1]);
    for number in 0..=255 {
        let operation = Operation::try_from(number).map(|operation| operation as u8);
        assert_eq!(operation, if (1..=3).contains(&number) { Ok(number) } else { Err(Refusal::Operation) });
        let rounding = Rounding::try_from(number).map(|rounding| rounding as u8);
        assert_eq!(rounding, if number <= 3 { Ok(number) } else { Err(Refusal::Rounding) });
        let parity = Parity::try_from(number).map(|parity| parity as u8);
        assert_eq!(parity, if number <= 1 { Ok(number) } else { Err(Refusal::Parity) });
    }
}

const FLAGS: [(&str, Status); 5] = [
    ("INVALID", Status::INVALID),
    ("DIVISION_BY_ZERO", Status::DIVISION_BY_ZERO),
    ("OVERFLOW", Status::OVERFLOW),
    ("UNDERFLOW", Status::UNDERFLOW),
    ("INEXACT", Status::INEXACT),
];

#[test]
fn flags_of_the_header() {
    let header = Header::read();
    for (name, flag) in FLAGS {
        assert_eq!(header.number(&format!("PLATE_{name}")), flag.number() as usize);
        assert_eq!(flag.to_string(), name.to_lowercase().replace('_', " "));
    }
    assert_eq!(Status::NONE, Status::default());
    assert_eq!((Status::NONE.number(), Status::NONE.to_string()), (0, "no flag".to_string()));
    for number in 0..=255 {
        let status = Status::from_number(number);
        assert_eq!(status.number(), number & 31);
        let mut sum = Status::NONE;
        for (_, flag) in FLAGS {
            assert_eq!(status.contains(flag), number & flag.number() != 0);
            if status.contains(flag) {
                sum |= flag;
            }
        }
        assert_eq!(sum, status);
        assert!(status.contains(Status::NONE) && (status | Status::INVALID).contains(status));
    }
    let two = Status::OVERFLOW | Status::INEXACT;
    assert!(two.contains(two) && !Status::INEXACT.contains(two));
    assert_eq!(two.to_string(), "overflow, inexact");
}

#[test]
fn refusals_of_the_header() {
    let header = Header::read();
    let mut numbers = BTreeSet::new();
    for (defined, value) in header.defined().filter(|(name, _)| name.starts_with("PLATE_REFUSED_")) {
        let number = value.parse().unwrap();
        let refusal = Refusal::from_number(number).unwrap();
        assert_eq!(defined, name("PLATE_REFUSED_", refusal));
        assert_eq!((refusal.number(), refusal as u8), (number, number));
        assert_eq!(refusal.words(), header.sentence(&format!("case {defined}:")));
        assert_eq!(refusal.to_string(), refusal.words());
        numbers.insert(number);
    }
    assert_eq!(numbers, (1..=16).collect());
    assert_eq!(Refusal::from_number(0), None);
    for number in 17..=255 {
        assert_eq!(Refusal::from_number(number), Some(Refusal::Unknown));
    }
    // The last sentence is that of any other number.
    let function = header.0.split("\n}\n").find(|text| text.contains("plate_refusal_words")).unwrap();
    assert_eq!(function.rsplit('"').nth(1), Some(Refusal::Unknown.words()));
}

// ------------------------------------------------------------------ Significands

#[test]
fn raw() {
    let mut chance = Chance(40);
    let mut significands = vec![0, 1, (1 << 23) - 1, 1 << 23, (1 << 24) - 1, 1 << 24, u32::MAX];
    significands.extend((0..20_000).map(|_| (chance.next() >> chance.range(39, 41)) as u32));
    let mut refused = BTreeSet::new();
    for significand in significands {
        for (operation, parity) in OPERATIONS.iter().flat_map(|&o| PARITIES.map(|p| (o, p))) {
            let (refusal, answer) = reference::raw(operation as u8, significand, parity as u8);
            let about = format!("{operation:?} {significand} {parity:?}");
            let given = numbers::raw(operation as u8, significand, parity as u8);
            assert_eq!(given, pack(refusal, 0, answer), "{about}");
            let given = plate::raw(operation, significand, parity);
            assert_eq!(numbered(given), reply(refusal, answer), "{about}");
            refused.insert(refusal);
        }
    }
    assert_eq!(refused, BTreeSet::from([0, 3, 4]));
}

/// Slices of many lengths, filled and not.
fn slices() -> Vec<Vec<u64>> {
    let sound = [tables(), &[0]].concat();
    LENGTHS.iter().flat_map(|&length| [sound[..length].to_vec(), vec![7; length]]).collect()
}

#[test]
fn raw64() {
    let mut chance = Chance(41);
    let mut significands = vec![0, 1, (1 << 52) - 1, 1 << 52, (1 << 53) - 1, 1 << 53, u64::MAX];
    significands.extend((0..1_000).map(|_| chance.next() >> chance.range(10, 12)));
    let slices = slices();
    let mut refused = BTreeSet::new();
    for significand in significands {
        for (operation, parity) in OPERATIONS.iter().flat_map(|&o| PARITIES.map(|p| (o, p))) {
            for slice in &slices {
                let (refusal, answer) = reference::raw64(operation as u8, significand, parity as u8, slice);
                let about = format!("{operation:?} {significand} {parity:?}, {} numbers", slice.len());
                let given = numbers::raw64(operation as u8, significand, parity as u8, slice);
                assert_eq!(given, (refusal, answer), "{about}");
                let given = plate::raw64(operation, significand, parity, slice);
                assert_eq!(numbered(given), reply(refusal, answer), "{about}");
                refused.insert(refusal);
            }
        }
    }
    assert_eq!(refused, BTreeSet::from([0, 3, 4, 15, 16]));
}

#[test]
fn fill_tables() {
    for length in LENGTHS {
        let mut slice = vec![7; length];
        let given = numbered(plate::fill_tables(&mut slice));
        if length == plate::TABLES {
            assert_eq!(given, Ok(()));
            assert!(slice == tables());
        } else {
            assert_eq!(given, Err(15));
            assert!(slice.iter().all(|&number| number == 7));
        }
    }
}

// --------------------------------------------------------- Binary32 and binary64

#[test]
fn binary32() {
    let mut chance = Chance(42);
    let mut patterns = vec![0, 1, 0x7F80_0000, 0x7F80_0001, 0x7FBF_FFFF, 0x7FC0_0000, 0x7F7F_FFFF, 0x3F80_0000];
    patterns.extend(patterns.clone().iter().map(|bits| bits | 1 << 31));
    patterns.extend((0..20_000).map(|_| chance.next() as u32));
    for bits in patterns {
        for (operation, rounding) in OPERATIONS.iter().flat_map(|&o| ROUNDINGS.map(|r| (o, r))) {
            let mut status = Status::from_number(chance.next() as u8);
            let before = status.number();
            let about = format!("{operation:?} {rounding:?} {bits:08X}, {status}");
            let (refusal, answer, new) = reference::binary32(operation as u8, rounding as u8, bits, before);
            let given = numbers::binary32(operation as u8, rounding as u8, before, bits);
            assert_eq!(given, pack(refusal, new, answer), "{about}");
            let parts = (numbers::refusal(given), numbers::status(given), numbers::answer(given));
            assert_eq!(parts, (0, new, answer), "{about}");
            let given = plate::binary32(operation, rounding, f32::from_bits(bits), &mut status);
            assert_eq!((given.to_bits(), status.number()), (answer, new), "{about}");
        }
    }
    assert_eq!(f32::NAN.to_bits() as u64, BINARY32.nan());
}

/// Both calls and the reference; gives the refusal. After one the status is as it was.
fn check64(operation: Operation, rounding: Rounding, bits: u64, before: u8, slice: &[u64]) -> u8 {
    let mut status = Status::from_number(before);
    let before = status.number();
    let about = format!("{operation:?} {rounding:?} {bits:X}, {status}, {} numbers", slice.len());
    let expected = reference::binary64(operation as u8, rounding as u8, bits, before, slice);
    let (refusal, answer, new) = expected;
    let given = numbers::binary64(operation as u8, rounding as u8, before, bits, slice);
    assert_eq!(given, expected, "{about}");
    let given = plate::binary64(operation, rounding, f64::from_bits(bits), &mut status, slice);
    assert_eq!(numbered(given).map(f64::to_bits), reply(refusal, answer), "{about}");
    assert_eq!(status.number(), new, "{about}");
    refusal
}

#[test]
fn binary64() {
    let mut chance = Chance(43);
    let mut patterns = vec![
        0, 1, BINARY64.infinity(), BINARY64.infinity() + 1, BINARY64.nan(), BINARY64.nan() + 1,
        BINARY64.largest(), 1f64.to_bits(), 3f64.to_bits(),
    ];
    patterns.extend(patterns.clone().iter().map(|bits| bits | BINARY64.sign()));
    let slices = slices();
    let mut refused = BTreeSet::new();
    for (operation, rounding) in OPERATIONS.iter().flat_map(|&o| ROUNDINGS.map(|r| (o, r))) {
        for (&bits, slice) in patterns.iter().flat_map(|bits| slices.iter().map(move |slice| (bits, slice))) {
            refused.insert(check64(operation, rounding, bits, chance.next() as u8, slice));
        }
        for _ in 0..5_000 {
            let (bits, before) = (chance.next(), chance.next() as u8);
            assert_eq!(check64(operation, rounding, bits, before, tables()), 0);
        }
    }
    assert_eq!(refused, BTreeSet::from([0, 15, 16]));
    assert_eq!(f64::NAN.to_bits(), BINARY64.nan());
}

/// One status through calls that raise the flags one after the other.
#[test]
fn flags_stay() {
    let mut status = Status::NONE;
    let mut raised = Status::NONE;
    for (operation, x, flags) in [
        (Operation::Root, 4.0, Status::NONE),
        (Operation::Reciprocal, 3.0, Status::INEXACT),
        (Operation::InverseRoot, 4.0, Status::NONE),
        (Operation::Reciprocal, f32::MAX, Status::UNDERFLOW | Status::INEXACT),
        (Operation::InverseRoot, -0.0, Status::DIVISION_BY_ZERO),
        (Operation::Reciprocal, f32::from_bits(1), Status::OVERFLOW | Status::INEXACT),
        (Operation::Root, f32::NAN, Status::NONE),
        (Operation::Root, -1.0, Status::INVALID),
        (Operation::Root, 4.0, Status::NONE),
    ] {
        let mut alone = Status::NONE;
        let answer = plate::binary32(operation, Rounding::Nearest, x, &mut alone);
        assert_eq!(alone, flags, "{operation:?} {x}");
        let again = plate::binary32(operation, Rounding::Nearest, x, &mut status);
        assert_eq!(again.to_bits(), answer.to_bits());
        raised |= flags;
        assert_eq!(status, raised, "{operation:?} {x}");
    }
    assert_eq!(status.to_string(), "invalid, division by zero, overflow, underflow, inexact");
}

// ------------------------------------------------------------------ Maps and lists

type Typed = for<'a> fn(Rounding, &[u8], &'a mut [u8]) -> Result<&'a mut [u8], Refusal>;
type Numbers = fn(u8, &[u8], &mut [u8]) -> u64;
type Reference = fn(u8, &[u8], &mut [u8]) -> (u8, u32);

/// Both list calls.
const LISTS: [(Typed, Numbers, Reference); 2] = [
    (plate::list, numbers::list, reference::list),
    (plate::lifted_list, numbers::lifted_list, reference::lifted_list),
];

/// Both list calls in every rounding on a buffer that holds these bytes; gives the refusal.
/// A list stands at the buffer's front, and the bytes behind it are kept; so are all after a
/// refusal.
fn check_lists(map: &[u8], lent: &[u8]) -> u8 {
    let mut refused = BTreeSet::new();
    for (rounding, (typed, numbers, reference)) in ROUNDINGS.iter().flat_map(|r| LISTS.map(|l| (*r, l))) {
        let mut expected = lent.to_vec();
        let (refusal, length) = reference(rounding as u8, map, &mut expected);
        let mut buffer = lent.to_vec();
        assert_eq!(numbers(rounding as u8, map, &mut buffer), pack(refusal, 0, length));
        assert!(buffer == expected);
        let mut buffer = lent.to_vec();
        let front = buffer.as_ptr();
        let given = typed(rounding, map, &mut buffer).map(|list| (list.as_ptr(), list.to_vec()));
        assert_eq!(numbered(given), reply(refusal, (front, expected[..length as usize].to_vec())));
        assert!(buffer == expected);
        refused.insert(refusal);
    }
    assert_eq!(refused.len(), 1);
    *refused.first().unwrap()
}

#[test]
fn lists() {
    let mut chance = Chance(44);
    let mut refused = BTreeSet::new();
    for k in 0..2_000 {
        let map = some_map(&mut chance);
        let mut bytes = map.bytes();
        if k % 2 == 1 {
            damage(&mut chance, k / 2 % 9, TRAILER, &mut bytes);
        } else if k % 20 == 0 {
            bytes[..4].copy_from_slice(&50_001i32.to_le_bytes());
        }
        let room = map.length().wrapping_add_signed(chance.range(-1, 40) as isize);
        refused.insert(check_lists(&bytes, &chance.bytes(room)));
    }
    assert_eq!(refused, BTreeSet::from([0, 5, 6, 7, 8, 9, 10, 11]));
}

/// The longest map and its list, in a buffer that just holds it and in one that does not.
#[test]
fn longest_list() {
    let mut chance = Chance(45);
    let heights = (0..64 * 64).map(|_| chance.range(-50_000, 50_000) as i32).collect();
    let map = Map { w: 64, d: 64, step: 1000, radius: 6000, heights }.bytes();
    assert_eq!(map.len(), plate::LONGEST_MAP);
    assert_eq!(check_lists(&map, &[7; plate::LONGEST_LIST]), 0);
    assert_eq!(check_lists(&map, &[7; plate::LONGEST_LIST - 1]), 11);
}

/// Both calls and the reference; gives the refusal.
fn check_record(list: &[u8], index: usize) -> u8 {
    let expected = reference::record(list, index);
    assert_eq!(numbers::record(list, index), expected);
    let (refusal, rounding, [columns, rows, step, radius], [x, y, z]) = expected;
    let rounding = rounding.map(|number| ROUNDINGS[number as usize]);
    let record = Record { rounding, columns, rows, step, radius, x, y, z };
    assert_eq!(numbered(plate::record(list, index)), reply(refusal, record));
    refusal
}

/// What the list call wrote, at every index and beyond, whole and damaged; and with CUT1.
#[test]
fn records() {
    let mut chance = Chance(46);
    let mut refused = BTreeSet::new();
    let mut buffer = [0; plate::LONGEST_LIST];
    for k in 0..1_000 {
        let map = some_map(&mut chance);
        let rounding = chance.pick(&ROUNDINGS);
        let list = plate::list(rounding, &map.bytes(), &mut buffer).unwrap();
        let end = list.len() - LIST_TRAILER;
        let old = [&list[..end], b"CUT1", &list[end + 4..end + TRAILER]].concat();
        let count = reference::record_count(map.w, map.d);
        for index in 0..count {
            assert_eq!((check_record(list, index), check_record(&old, index)), (0, 0));
        }
        assert_eq!(plate::record(list, 0).unwrap().rounding, Some(rounding));
        assert_eq!(plate::record(&old, 0).unwrap().rounding, None);
        for index in [count, count + 1, usize::MAX] {
            refused.extend([check_record(list, index), check_record(&old, index)]);
        }
        let mut damaged = list.to_vec();
        if k % 10 == 9 {
            damaged[end + 16] += 4;
        } else {
            damage(&mut chance, k % 10, LIST_TRAILER, &mut damaged);
        }
        refused.insert(check_record(&damaged, 0));
    }
    assert_eq!(refused, BTreeSet::from([0, 2, 5, 7, 8, 12, 13, 14]));
}

// ------------------------------------------------------------------ Every refusal

/// The list calls' refusal of a map with these heights, letters and sizes, and a buffer of
/// this length.
fn of_map(heights: &[i32], letters: &[u8; 4], sizes: [u16; 4], room: usize) -> Option<Refusal> {
    let map = with_trailer(heights, letters, sizes);
    let [first, lifted] = LISTS.map(|(typed, ..)| typed(Rounding::Down, &map, &mut vec![0; room]).err());
    assert_eq!(first, lifted);
    first
}

/// The reader's refusal of a list of one record with these letters and sizes and this
/// rounding.
fn of_list(letters: &[u8; 4], sizes: [u16; 4], rounding: u8, index: usize) -> Option<Refusal> {
    let list = [with_trailer(&[1, 2, 3], letters, sizes), vec![rounding, 0]].concat();
    plate::record(&list, index).err()
}

/// Every refusal that there is comes from a call with kinds, with its sentence.
#[test]
fn every_refusal() {
    let header = Header::read();
    let root = |tables: &[u64]| {
        plate::binary64(Operation::Root, Rounding::Up, 2.0, &mut Status::default(), tables).err()
    };
    let (flat, deep) = ([0; 9], [0, 0, 0, 0, 0, 0, 0, 0, -50_001]);
    let sizes = [3, 3, 1, 1];
    let refused = [
        Operation::try_from(4).err(),
        of_list(b"CUT2", sizes, 4, 0),
        plate::raw(Operation::Root, 0, Parity::Even).err(),
        plate::raw(Operation::Reciprocal, 1 << 23, Parity::Odd).err(),
        plate::record(&[0; 15], 0).err(),
        of_map(&flat, b"CUT1", sizes, 30),
        of_map(&flat, b"PLT1", [3, 65, 1, 1], 30),
        of_map(&flat, b"PLT1", [3, 3, 1, 12_501], 30),
        of_map(&flat, b"PLT1", [3, 4, 1, 1], 42),
        of_map(&deep, b"PLT1", sizes, 30),
        of_map(&flat, b"PLT1", sizes, 29),
        of_list(b"PLT1", sizes, 0, 0),
        of_list(b"CUT2", [3, 4, 1, 1], 0, 0),
        of_list(b"CUT2", sizes, 0, 1),
        root(&tables()[1..]),
        root(&[0; plate::TABLES]),
    ];
    for (refusal, number) in refused.into_iter().zip(1..) {
        let refusal = refusal.unwrap_or_else(|| panic!("no refusal {number}"));
        assert_eq!(refusal.number(), number);
        let case = format!("case {}:", name("PLATE_REFUSED_", refusal));
        let error: Box<dyn Error> = refusal.into();
        assert_eq!(error.to_string(), header.sentence(&case));
    }
}
