//! From a map to a list, and a list read back.

use crate::refusal::accepted;
use crate::{numbers, Refusal, Rounding};

/// How many bytes a map has at most.
pub const LONGEST_MAP: usize = 16_400;

/// How many bytes a list has at most.
pub const LONGEST_LIST: usize = list_length(64, 64);

/// How many bytes the list of a map has, of 3 to 64 columns and rows each.
#[inline]
pub const fn list_length(columns: usize, rows: usize) -> usize {
    let records = columns.saturating_sub(2).saturating_mul(rows.saturating_sub(2));
    records.saturating_mul(12).saturating_add(18)
}

/// The list of a map: a record for each point that is not on the map's border, row by row,
/// with the cutter's centre there. It is written to the front of the buffer, and that part,
/// [`list_length`] bytes of it, is given; the bytes behind are kept. [`LONGEST_LIST`] bytes
/// are enough for every map.
///
/// Each centre is its map point plus the offset along the surface's normal, radius long, of
/// which each coordinate is rounded once. Of one map, the list rounded down and the list
/// rounded up are a bracket: where two numbers of them differ, the upper is larger by one
/// micrometre.
///
/// Refusals: [`TooShort`](Refusal::TooShort), [`MapLetters`](Refusal::MapLetters),
/// [`ColumnsRows`](Refusal::ColumnsRows), [`StepRadius`](Refusal::StepRadius),
/// [`MapLength`](Refusal::MapLength), [`Height`](Refusal::Height) and
/// [`Buffer`](Refusal::Buffer), in this order; after one the whole buffer is kept.
///
/// ```
/// use plate::Rounding;
///
/// let mut map = Vec::new();
/// for height in [0, 1500, 3000, 0, 1500, 3000, 0, 1500, 3000i32] {
///     map.extend(height.to_le_bytes());
/// }
/// map.extend(b"PLT1");
/// map.extend(36u32.to_le_bytes());
/// for size in [3, 3, 2000, 5000u16] {
///     map.extend(size.to_le_bytes());
/// }
///
/// let mut buffer = [0; plate::LONGEST_LIST];
/// let list = plate::list(Rounding::Up, &map, &mut buffer)?;
/// assert_eq!(list.len(), plate::list_length(3, 3));
///
/// let record = plate::record(list, 0)?;
/// assert_eq!((record.x, record.y, record.z), (-1000, 2000, 5500));
/// assert_eq!(record.rounding, Some(Rounding::Up));
/// # Ok::<(), plate::Refusal>(())
/// ```
#[inline]
pub fn list<'a>(rounding: Rounding, map: &[u8], buffer: &'a mut [u8]) -> Result<&'a mut [u8], Refusal> {
    let given = numbers::list(rounding as u8, map, buffer);
    written(given, buffer)
}

/// The same list with each centre lifted until the ball keeps off its neighbours. x and y are
/// those of [`list`] in the same rounding. z is the least whole number that is not below
/// [`list`]'s z and, for each of the nine heights round the point (its own too) whose level
/// distance from x and y is below the radius, at least that height plus the root of
/// radius² - distance²: always up, whatever the rounding.
///
/// A list does not say whether it is lifted. Lifted lists of two roundings are not a bracket:
/// the lower z may lie above the upper. Refusals: those of [`list`].
#[inline]
pub fn lifted_list<'a>(
    rounding: Rounding,
    map: &[u8],
    buffer: &'a mut [u8],
) -> Result<&'a mut [u8], Refusal> {
    let given = numbers::lifted_list(rounding as u8, map, buffer);
    written(given, buffer)
}

/// The part of the buffer that a list call wrote.
#[inline]
fn written(given: u64, buffer: &mut [u8]) -> Result<&mut [u8], Refusal> {
    accepted(numbers::refusal(given))?;
    // The list of an accepted call fits in.
    buffer.get_mut(..numbers::answer(given) as usize).ok_or(Refusal::Buffer)
}

/// A record of a list, with the rounding and the sizes that the list states.
#[derive(Clone, Copy, Debug, PartialEq, Eq, Hash)]
pub struct Record {
    /// The rounding that made the list. An older list, which ends in CUT1, does not say it.
    pub rounding: Option<Rounding>,
    /// The map's columns
    pub columns: u32,
    /// The map's rows
    pub rows: u32,
    /// The way from one column or row to the next, in micrometres
    pub step: u32,
    /// The cutter's radius, in micrometres
    pub radius: u32,
    /// The way from the first column to the cutter's centre, in micrometres
    pub x: i32,
    /// The way from the first row to it, in micrometres
    pub y: i32,
    /// Its height, in micrometres
    pub z: i32,
}

/// The record of a list at an index, which counts from 0, row by row, to below
/// (columns - 2) (rows - 2). The slice is the list alone, as a list call gave it.
///
/// Refusals: [`TooShort`](Refusal::TooShort), [`ListLetters`](Refusal::ListLetters),
/// [`ColumnsRows`](Refusal::ColumnsRows), [`StepRadius`](Refusal::StepRadius),
/// [`ListLength`](Refusal::ListLength), [`Rounding`](Refusal::Rounding) and
/// [`Index`](Refusal::Index), in this order.
#[inline]
pub fn record(list: &[u8], index: usize) -> Result<Record, Refusal> {
    let (refusal, rounding, [columns, rows, step, radius], [x, y, z]) = numbers::record(list, index);
    accepted(refusal)?;
    let rounding = rounding.and_then(|number| Rounding::try_from(number).ok());
    Ok(Record { rounding, columns, rows, step, radius, x, y, z })
}
