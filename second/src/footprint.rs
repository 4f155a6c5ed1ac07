//! A footprint file goes in; whether it is a good one comes out, and where in it a recording's
//! triangles are. Everything follows the rules, test by test.

pub mod stored;

#[cfg(test)]
mod worked;

use stored::{Line, Trailer, ENTRY, TRAILER, TRIANGLE};

pub const MOST_BYTES: usize = 65_536;
pub const MOST_RECORDINGS: u32 = 64;
/// The largest coordinate, and with a minus the smallest.
pub const FARTHEST: i32 = 1_000_000;

/// Laid out as the C interface's `meskelow_verdict`.
#[repr(C)]
#[derive(Clone, Copy, Debug, Default, PartialEq, Eq)]
pub struct Verdict {
    pub number: u32,
    pub place: u32,
}

/// Laid out as the C interface's `meskelow_entry`.
#[repr(C)]
#[derive(Clone, Copy, Debug, Default, PartialEq, Eq)]
pub struct Entry {
    pub number: u32,
    pub place: u32,
    pub id: u32,
    pub first: u32,
    pub count: u32,
    pub set: u32,
    pub last: u32,
}

/// What can refuse a file, in the order in which it is tested, and a recording last.
#[derive(Clone, Copy, Debug, PartialEq, Eq)]
pub enum Reason {
    Length,
    StoredLength,
    TooManyRecordings,
    TablePlace,
    NoTriangles,
    Set,
    LastByte,
    EditionOfNoTest,
    First,
    Id,
    EndOfTriangles,
    TableOfNone,
    Range,
    ZeroArea,
    NoSuchRecording,
}

impl Reason {
    pub fn number(self) -> u32 {
        match self {
            Reason::NoSuchRecording => 10,
            Reason::Length => 11,
            Reason::StoredLength => 12,
            Reason::TooManyRecordings | Reason::TablePlace => 13,
            Reason::NoTriangles
            | Reason::Set
            | Reason::LastByte
            | Reason::EditionOfNoTest
            | Reason::First => 14,
            Reason::EndOfTriangles | Reason::TableOfNone => 15,
            Reason::Id => 16,
            Reason::Range => 17,
            Reason::ZeroArea => 18,
        }
    }

    /// Places of a file that is not too long all fit.
    pub fn at(self, place: usize) -> Refused {
        Refused { reason: self, place: place as u32 }
    }
}

#[derive(Clone, Copy, Debug, PartialEq, Eq)]
pub struct Refused {
    pub reason: Reason,
    pub place: u32,
}

/// Never inlined, so that a caller pays for a call here as for one of a library.
#[inline(never)]
pub fn judge(file: &[u8]) -> Verdict {
    match table_of(file) {
        Ok(_) => Verdict::default(),
        Err(refused) => Verdict { number: refused.reason.number(), place: refused.place },
    }
}

pub fn recording(file: &[u8], k: usize) -> Entry {
    match line_of(file, k) {
        Ok(line) => Entry {
            number: 0,
            place: 0,
            id: line.id,
            first: line.first,
            count: u32::from(line.count),
            set: u32::from(line.set),
            last: u32::from(line.last),
        },
        Err(refused) => Entry { number: refused.reason.number(), place: refused.place, ..Entry::default() },
    }
}

/// The bytes of a recording's triangles; none where the file or the recording is refused.
pub fn part(file: &[u8], k: usize) -> &[u8] {
    match line_of(file, k) {
        Ok(line) => line.part(file),
        Err(_) => &[],
    }
}

/// The same of the recording that has the id; None where no recording of a good file has it.
pub fn part_with(file: &[u8], id: u32) -> Result<Option<&[u8]>, Refused> {
    let mut entries = table_of(file)?.chunks_exact(ENTRY);
    Ok(entries.find(|entry| stored::id_of(entry) == id).map(|entry| Line::read(entry).part(file)))
}

/// The whole table of a good file, in its order.
pub fn lines_of(file: &[u8]) -> Result<Vec<Line>, Refused> {
    Ok(table_of(file)?.chunks_exact(ENTRY).map(Line::read).collect())
}

/// Six to a triangle, in the order in which they are stored.
pub fn coordinate(part: &[u8], index: usize) -> f64 {
    f64::from(stored::i32_at(part, 4 * index))
}

fn line_of(file: &[u8], k: usize) -> Result<Line, Refused> {
    let mut lines = table_of(file)?.chunks_exact(ENTRY);
    lines.nth(k).map(Line::read).ok_or_else(|| Reason::NoSuchRecording.at(0))
}

/// The table's bytes, if the whole file is a good one.
fn table_of(file: &[u8]) -> Result<&[u8], Refused> {
    let place = table_place_of(file)?;
    let table = &file[place..file.len() - TRAILER];
    let end = end_of_triangles(table, place)?;
    if end != place as u64 {
        let reason = if table.is_empty() { Reason::TableOfNone } else { Reason::EndOfTriangles };
        return Err(reason.at(place));
    }
    match first_bad_triangle(&file[..place]) {
        Some(refused) => Err(refused),
        None => Ok(table),
    }
}

fn table_place_of(file: &[u8]) -> Result<usize, Refused> {
    let length = file.len();
    if !(TRAILER..=MOST_BYTES).contains(&length) {
        return Err(Reason::Length.at(0));
    }
    let trailer = Trailer::read(&file[length - TRAILER..]);
    if u64::from(trailer.length) != length as u64 {
        return Err(Reason::StoredLength.at(0));
    }
    if trailer.recordings > MOST_RECORDINGS {
        return Err(Reason::TooManyRecordings.at(length - TRAILER));
    }
    if trailer.end() != length as u64 {
        return Err(Reason::TablePlace.at(length - TRAILER));
    }
    Ok(trailer.table as usize)
}

/// Where the last entry's triangles end, if every entry is good. That may be beyond the file.
fn end_of_triangles(table: &[u8], table_place: usize) -> Result<u64, Refused> {
    let mut end = 0;
    for (k, bytes) in table.chunks_exact(ENTRY).enumerate() {
        let line = Line::read(bytes);
        let place = table_place + ENTRY * k;
        if let Some(reason) = line.faults(end).next() {
            return Err(reason.at(place));
        }
        let earlier = table[..ENTRY * k].chunks_exact(ENTRY);
        if earlier.map(stored::id_of).any(|id| id == line.id) {
            return Err(Reason::Id.at(place));
        }
        end += line.bytes();
    }
    Ok(end)
}

fn first_bad_triangle(triangles: &[u8]) -> Option<Refused> {
    for (k, bytes) in triangles.chunks_exact(TRIANGLE).enumerate() {
        let values = stored::triangle(bytes);
        if !values.iter().all(|value| in_range(*value)) {
            return Some(Reason::Range.at(TRIANGLE * k));
        }
        if has_zero_area(values) {
            return Some(Reason::ZeroArea.at(TRIANGLE * k));
        }
    }
    None
}

pub fn in_range(value: i32) -> bool {
    (-FARTHEST..=FARTHEST).contains(&value)
}

/// Of a triangle in range, whose differences fit into 32 bits and their products into 64.
fn has_zero_area([x0, y0, x1, y1, x2, y2]: [i32; 6]) -> bool {
    let product = |a: i32, b: i32| i64::from(a) * i64::from(b);
    product(x1 - x0, y2 - y0) == product(y1 - y0, x2 - x0)
}
