//! What a footprint file stores, read as it stands and without a judgement.

use super::Reason;

/// Bytes of one triangle, of one entry of the table, and of the trailer.
pub const TRIANGLE: usize = 24;
pub const ENTRY: usize = 12;
pub const TRAILER: usize = 12;

/// The sets that a recording can be stored with. The last is retired: old files have it, and nobody writes it
/// any more.
pub const TRAINING: u8 = 0;
pub const TEST: u8 = 1;
pub const HELD_BACK: u8 = 2;

/// What an entry can have for a last byte: the edition of the leak rule that a test goes by. What is no test
/// goes by none, and has the first.
pub const FIRST_EDITION: u8 = 0;
pub const SECOND_EDITION: u8 = 1;

/// An entry of the table.
#[derive(Clone, Copy, Debug)]
pub struct Line {
    pub id: u32,
    pub first: u32,
    pub count: u16,
    pub set: u8,
    pub last: u8,
}

impl Line {
    pub fn read(bytes: &[u8]) -> Line {
        Line {
            id: id_of(bytes),
            first: u32_at(bytes, 4),
            count: u16::from_le_bytes([bytes[8], bytes[9]]),
            set: bytes[10],
            last: bytes[11],
        }
    }

    /// How many bytes its triangles take.
    pub fn bytes(&self) -> u64 {
        TRIANGLE as u64 * u64::from(self.count)
    }

    /// Its triangles, in the good file that it is from.
    pub fn part<'a>(&self, file: &'a [u8]) -> &'a [u8] {
        &file[self.first as usize..][..TRIANGLE * usize::from(self.count)]
    }

    /// What is wrong with it by itself, if the triangles before it end at `end`.
    pub fn faults(&self, end: u64) -> impl Iterator<Item = Reason> {
        let tests = [
            (self.count == 0, Reason::NoTriangles),
            (self.set > HELD_BACK, Reason::Set),
            (self.last > SECOND_EDITION, Reason::LastByte),
            (self.last == SECOND_EDITION && self.set != TEST, Reason::EditionOfNoTest),
            (u64::from(self.first) != end, Reason::First),
        ];
        tests.into_iter().filter(|test| test.0).map(|test| test.1)
    }
}

#[derive(Clone, Copy, Debug)]
pub struct Trailer {
    pub table: u32,
    pub recordings: u32,
    pub length: u32,
}

impl Trailer {
    pub fn read(bytes: &[u8]) -> Trailer {
        Trailer { table: u32_at(bytes, 0), recordings: u32_at(bytes, 4), length: u32_at(bytes, 8) }
    }

    /// Where a file with this table would end.
    pub fn end(&self) -> u64 {
        u64::from(self.table) + ENTRY as u64 * u64::from(self.recordings) + TRAILER as u64
    }
}

#[inline]
pub fn id_of(entry: &[u8]) -> u32 {
    u32_at(entry, 0)
}

#[inline]
pub fn triangle(bytes: &[u8]) -> [i32; 6] {
    let value = |index: usize| i32_at(bytes, 4 * index);
    [value(0), value(1), value(2), value(3), value(4), value(5)]
}

#[inline]
pub fn i32_at(bytes: &[u8], place: usize) -> i32 {
    u32_at(bytes, place) as i32
}

#[inline]
pub fn u32_at(bytes: &[u8], place: usize) -> u32 {
    u32::from_le_bytes([bytes[place], bytes[place + 1], bytes[place + 2], bytes[place + 3]])
}
