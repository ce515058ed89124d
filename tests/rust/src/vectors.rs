//! The vector files below crates/, which tests/reference/make_vectors.py writes.

use std::path::PathBuf;

use crate::reference::{tables, Reading};

pub fn file(folder: &str, name: &str) -> Vec<u8> {
    let path = PathBuf::from(env!("CARGO_MANIFEST_DIR"))
        .join("../../crates")
        .join(folder)
        .join(name);
    std::fs::read(&path).unwrap_or_else(|error| panic!("{}: {error}", path.display()))
}

/// The words of each line.
fn lines(folder: &str, name: &str) -> Vec<Vec<String>> {
    let text = String::from_utf8(file(folder, name)).unwrap();
    text.lines().map(|line| line.split(' ').map(String::from).collect()).collect()
}

/// The operands of each call of a kind, r, b or t, in a folder, and what it gives.
pub fn calls(folder: &str, kind: &str) -> Vec<(Vec<String>, Vec<String>)> {
    let (given, expected) = (lines(folder, "stdin"), lines(folder, "stdout"));
    assert_eq!(given.len(), expected.len());
    let both = given.into_iter().zip(expected);
    both.filter(|(given, _)| given[0] == kind).map(|(given, expected)| (given[1..].to_vec(), expected)).collect()
}

fn take<'a>(given: &mut &'a [u8], count: usize) -> &'a [u8] {
    let (taken, rest) = given.split_at(count);
    *given = rest;
    taken
}

fn take_number(given: &mut &[u8], count: usize) -> usize {
    take(given, count).iter().rev().fold(0, |number, &byte| number << 8 | byte as usize)
}

/// What frames of both kinds begin with: the bytes of a map or a list, and the
/// number that stands between their length and them.
fn take_frame(given: &mut &[u8]) -> (Vec<u8>, usize) {
    let length = take_number(given, 4);
    let number = take_number(given, 4);
    (take(given, length).to_vec(), number)
}

pub struct Frame {
    pub map: Vec<u8>,
    pub room: usize,
    /// Refusal, length and digest for the roundings 0 to 4, of the first list call and
    /// of the lifted one.
    pub expected: [[[i64; 3]; 5]; 2],
}

pub fn frames() -> Vec<Frame> {
    let given = file("list_vectors", "stdin");
    let mut given = given.as_slice();
    let mut expected = lines("list_vectors", "stdout").into_iter().map(|line| {
        let numbers: Vec<i64> = line.iter().map(|word| word.parse().unwrap()).collect();
        numbers.try_into().unwrap()
    });
    let mut frames = Vec::new();
    while !given.is_empty() {
        let (map, room) = take_frame(&mut given);
        let mut line = || expected.next().unwrap();
        frames.push(Frame { map, room, expected: [(); 2].map(|_| [(); 5].map(|_| line())) });
    }
    assert!(expected.next().is_none());
    frames
}

/// What the buffer of a frame holds before each call.
pub fn lent(room: usize) -> Vec<u8> {
    (0..room).map(|j| (j * 7 + 3) as u8).collect()
}

/// The digest of bytes, or of numbers of 64 bits.
pub fn digest<T: Copy + Into<u64>>(numbers: &[T]) -> i64 {
    const MODULUS: u64 = 4_294_967_291;
    numbers.iter().fold(1, |digest, &x| (digest * 257 + x.into() % MODULUS + 1) % MODULUS) as i64
}

/// The numbers that the calls of crates/binary64_vectors are lent the first ones of: the
/// tables and a 0 behind.
pub struct Lent(Vec<u64>);

impl Lent {
    pub fn new() -> Lent {
        Lent([tables(), &[0]].concat())
    }

    /// What a call gives with the slice of its words LENGTH PLACE ENTRY: so many numbers,
    /// with this one at that place.
    pub fn with<T>(&mut self, words: &[String], call: impl FnOnce(&[u64]) -> T) -> T {
        let [length, place] = [0, 1].map(|k: usize| words[k].parse::<usize>().unwrap());
        let entry = u64::from_str_radix(&words[2], 16).unwrap();
        let kept = self.0.get(place).copied();
        if kept.is_some() {
            self.0[place] = entry;
        }
        let given = call(&self.0[..length]);
        if let Some(kept) = kept {
            assert_eq!(self.0[place], entry, "the slice was written");
            self.0[place] = kept;
        }
        given
    }

    /// No call has written to a slice.
    pub fn kept(&self) -> bool {
        self.0 == Lent::new().0
    }
}

pub struct RecordFrame {
    pub list: Vec<u8>,
    pub indexes: Vec<usize>,
    /// For each index.
    pub expected: Vec<Reading>,
}

/// refusal rounding w d step radius x y z; an unknown rounding is -.
fn reading(line: Vec<String>) -> Reading {
    assert_eq!(line.len(), 9);
    let rounding = (line[1] != "-").then(|| line[1].parse().unwrap());
    let sizes = [2, 3, 4, 5].map(|k: usize| line[k].parse().unwrap());
    (line[0].parse().unwrap(), rounding, sizes, [6, 7, 8].map(|k: usize| line[k].parse().unwrap()))
}

pub fn record_frames() -> Vec<RecordFrame> {
    let given = file("record_vectors", "stdin");
    let mut given = given.as_slice();
    let mut expected = lines("record_vectors", "stdout").into_iter().map(reading);
    let mut frames = Vec::new();
    while !given.is_empty() {
        let (list, count) = take_frame(&mut given);
        let indexes = (0..count).map(|_| take_number(&mut given, 8)).collect();
        frames.push(RecordFrame { list, indexes, expected: expected.by_ref().take(count).collect() });
    }
    assert!(expected.next().is_none());
    frames
}
