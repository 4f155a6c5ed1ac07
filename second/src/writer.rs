//! Lists of recordings, the numbers of their triangles and lent room go in; the footprint file that they
//! make comes out, at the front of the room. Everything follows the rules, test by test.

#[cfg(test)]
mod worked;

use crate::footprint::stored::{ENTRY, FIRST_EDITION, SECOND_EDITION, TEST, TRAILER, TRAINING, TRIANGLE};
use crate::footprint::{FARTHEST, MOST_BYTES, MOST_RECORDINGS};

/// Numbers of one triangle.
pub const NUMBERS: usize = 6;

/// What a file is to be written from.
#[derive(Clone, Copy, Debug)]
pub struct Handed<'a> {
    pub ids: &'a [u32],
    pub counts: &'a [u32],
    pub sets: &'a [u8],
    /// The entries' last bytes.
    pub lasts: &'a [u8],
    pub numbers: &'a [i32],
}

/// Laid out as the C interface's `meskelow_written`.
#[repr(C)]
#[derive(Clone, Copy, Debug, Default, PartialEq, Eq)]
pub struct Written {
    pub number: u32,
    pub place: u32,
    /// Bytes of the file.
    pub length: usize,
}

/// What can keep a file from being written, in the order in which it is tested.
#[derive(Clone, Copy, Debug, PartialEq, Eq)]
pub enum Reason {
    Lengths,
    BrokenOff,
    NoTriangles,
    Set,
    LastByte,
    EditionOfNoTest,
    Id,
    Sum,
    Range,
    ZeroArea,
    TooManyRecordings,
    TooLong,
    RoomTooShort,
}

impl Reason {
    pub fn number(self) -> u32 {
        match self {
            Reason::TooManyRecordings => 13,
            Reason::NoTriangles | Reason::Set | Reason::LastByte | Reason::EditionOfNoTest => 14,
            Reason::Lengths | Reason::BrokenOff | Reason::Sum => 15,
            Reason::Id => 16,
            Reason::Range => 17,
            Reason::ZeroArea => 18,
            Reason::TooLong | Reason::RoomTooShort => 19,
        }
    }
}

/// Never inlined, so that a caller pays for a call here as for one of a library.
#[inline(never)]
pub fn write(handed: Handed, room: &mut [u8]) -> Written {
    match room_for(handed, room) {
        Ok(file) => {
            fill(file, handed);
            Written { number: 0, place: 0, length: file.len() }
        }
        Err(reason) => Written { number: reason.number(), place: 0, length: 0 },
    }
}

/// The front of the room, just as long as the file, if nothing is to be refused.
fn room_for<'a>(handed: Handed, room: &'a mut [u8]) -> Result<&'a mut [u8], Reason> {
    judge_lists(handed)?;
    judge_triangles(handed.numbers)?;
    if handed.ids.len() > MOST_RECORDINGS as usize {
        return Err(Reason::TooManyRecordings);
    }
    let length = TRIANGLE * (handed.numbers.len() / NUMBERS) + ENTRY * handed.ids.len() + TRAILER;
    if length > MOST_BYTES {
        return Err(Reason::TooLong);
    }
    room.get_mut(..length).ok_or(Reason::RoomTooShort)
}

fn judge_lists(handed: Handed) -> Result<(), Reason> {
    let Handed { ids, counts, sets, lasts, numbers } = handed;
    if [counts.len(), sets.len(), lasts.len()] != [ids.len(); 3] {
        return Err(Reason::Lengths);
    }
    if numbers.len() % NUMBERS != 0 {
        return Err(Reason::BrokenOff);
    }
    for (k, id) in ids.iter().enumerate() {
        if counts[k] == 0 {
            return Err(Reason::NoTriangles);
        }
        if ![TRAINING, TEST].contains(&sets[k]) {
            return Err(Reason::Set);
        }
        if ![FIRST_EDITION, SECOND_EDITION].contains(&lasts[k]) {
            return Err(Reason::LastByte);
        }
        if lasts[k] == SECOND_EDITION && sets[k] != TEST {
            return Err(Reason::EditionOfNoTest);
        }
        if ids[..k].contains(id) {
            return Err(Reason::Id);
        }
    }
    // So wide that no list of counts can make it wrap.
    let sum: u128 = counts.iter().map(|count| u128::from(*count)).sum();
    if sum != (numbers.len() / NUMBERS) as u128 {
        return Err(Reason::Sum);
    }
    Ok(())
}

fn judge_triangles(numbers: &[i32]) -> Result<(), Reason> {
    for triangle in numbers.chunks_exact(NUMBERS) {
        if !triangle.iter().all(|number| (-FARTHEST..=FARTHEST).contains(number)) {
            return Err(Reason::Range);
        }
        if is_flat(triangle) {
            return Err(Reason::ZeroArea);
        }
    }
    Ok(())
}

/// Of a triangle in range, whose differences fit into 32 bits and their products into 64.
fn is_flat(triangle: &[i32]) -> bool {
    let (x, y) = (|vertex: usize| triangle[2 * vertex], |vertex: usize| triangle[2 * vertex + 1]);
    let [across, up] = [x(1) - x(0), y(1) - y(0)].map(i64::from);
    let [across_too, up_too] = [x(2) - x(0), y(2) - y(0)].map(i64::from);
    across * up_too == up * across_too
}

/// Writes every byte of the file. All that is stored fits where it is put, as nothing was refused.
fn fill(file: &mut [u8], handed: Handed) {
    let length = file.len();
    let place = length - TRAILER - ENTRY * handed.ids.len();
    let (triangles, rest) = file.split_at_mut(place);
    let (table, trailer) = rest.split_at_mut(ENTRY * handed.ids.len());
    for (bytes, number) in triangles.chunks_exact_mut(4).zip(handed.numbers) {
        bytes.copy_from_slice(&number.to_le_bytes());
    }
    let mut first = 0;
    for (k, entry) in table.chunks_exact_mut(ENTRY).enumerate() {
        entry[..4].copy_from_slice(&handed.ids[k].to_le_bytes());
        entry[4..8].copy_from_slice(&(first as u32).to_le_bytes());
        entry[8..10].copy_from_slice(&(handed.counts[k] as u16).to_le_bytes());
        entry[10] = handed.sets[k];
        entry[11] = handed.lasts[k];
        first += TRIANGLE * handed.counts[k] as usize;
    }
    let pointers = [place, handed.ids.len(), length];
    for (bytes, value) in trailer.chunks_exact_mut(4).zip(pointers) {
        bytes.copy_from_slice(&(value as u32).to_le_bytes());
    }
}
