//! Slices that are lent to the roots of plate_raw64 and plate_binary64: of other lengths,
//! and with wrong numbers.

use std::fmt::Debug;

use crate::chance::Chance;
use crate::reference::{tables, TABLES};

pub const LENGTHS: [usize; 5] = [0, 1, TABLES - 1, TABLES, TABLES + 1];

/// Numbers that are not the entry at this place: beside it, entries of other places, and
/// any; at some places, the ends of the tables among them, it with each of its bits turned.
fn wrong_entries(place: usize, chance: &mut Chance) -> Vec<u64> {
    let entry = tables()[place];
    let other = tables()[(place + chance.pick(&[1, 32_768, 65_536, 98_304, TABLES - 1])) % TABLES];
    let turned = entry ^ 1 << chance.range(0, 63);
    let mut wrong = vec![entry - 1, entry + 1, 0, 2 * entry, entry / 2, other, turned, chance.next()];
    if place % 61 == 0 || place % 32_768 < 3 || place % 32_768 > 32_764 {
        wrong.extend((0..64).map(|bit| entry ^ 1 << bit));
    }
    wrong.retain(|&number| number != entry);
    wrong
}

/// The tables, and numbers of which none is the entry of its place; both with one number
/// behind.
pub struct Slices {
    sound: Vec<u64>,
    wrong: Vec<u64>,
    chance: Chance,
}

impl Slices {
    pub fn new(seed: u64) -> Slices {
        let mut chance = Chance(seed);
        let sound = [tables(), &[0]].concat();
        let wrong = sound.iter().map(|&entry| entry ^ 1 << chance.range(0, 63)).collect();
        Slices { sound, wrong, chance }
    }

    /// The first numbers of both, as many as each of LENGTHS.
    pub fn of_all_lengths(&self) -> Vec<&[u64]> {
        let of = |numbers| LENGTHS.map(|length| &Vec::as_slice(numbers)[..length]);
        [of(&self.sound), of(&self.wrong)].concat()
    }

    /// A call that uses the entry at this place: with every other number wrong it is
    /// accepted, and with this number wrong alone it is refused.
    pub fn check<T: PartialEq + Debug>(
        &mut self,
        place: usize,
        call: impl Fn(&[u64]) -> T,
        accepted: T,
        refused: T,
    ) {
        let entry = self.sound[place];
        let number = std::mem::replace(&mut self.wrong[place], entry);
        assert_eq!(call(&self.wrong[..TABLES]), accepted, "every number but that at {place} wrong");
        self.wrong[place] = number;
        for number in wrong_entries(place, &mut self.chance) {
            self.sound[place] = number;
            assert_eq!(call(&self.sound[..TABLES]), refused, "{number:X} for {entry:X} at {place}");
        }
        self.sound[place] = entry;
    }

    /// No call has written to a slice.
    pub fn kept(&self) -> bool {
        let wrong = self.wrong.iter().zip(tables()).all(|(number, entry)| number != entry);
        self.sound[..TABLES] == *tables() && wrong
    }
}
