//! What a wrong program could do unseen unless a file, or a recording asked of it, brings it about.

pub mod editions;

use super::coverage::{Coverage, Of};
use super::shapes::{equal_vertices, larger_product, only_out_of_range};
use crate::footprint::{Reason, MOST_BYTES};

pub type Event = (&'static str, fn(&Coverage) -> bool);

/// Looked at in good files only.
pub const ACCEPTED: [Event; 14] = [
    ("no recordings", |c| c.recordings() == 0),
    ("1 recording", |c| c.recordings() == 1),
    ("2 to 63 recordings", |c| (2..64).contains(&c.recordings())),
    ("64 recordings", |c| c.recordings() == 64),
    ("65,532 bytes, which no good file exceeds", |c| c.file.len() == 65_532),
    ("id 0", |c| c.lines().iter().any(|line| line.id == 0)),
    ("id 4,294,967,295", |c| c.lines().iter().any(|line| line.id == u32::MAX)),
    ("two ids that differ in their first byte only", |c| near_ids(c, 0xff)),
    ("two ids that differ in their last byte only", |c| near_ids(c, 0xff00_0000)),
    ("coordinate 1,000,000", |c| c.shapes.highest),
    ("coordinate -1,000,000", |c| c.shapes.lowest),
    ("both orientations", |c| c.shapes.clockwise && c.shapes.anticlockwise),
    ("cross that is zero to 32 bits", |c| c.shapes.zero_to_32_bits),
    ("long triangle with a cross of 1 or -1", |c| c.shapes.thin),
];

pub const AT_TRAILER: [Event; 16] = [
    ("11, empty", |c| c.number() == 11 && c.file.is_empty()),
    ("11, 1 to 11 bytes", |c| c.number() == 11 && (1..12).contains(&c.file.len())),
    ("11, 65,537 bytes", |c| c.number() == 11 && c.file.len() == MOST_BYTES + 1),
    ("11, longer", |c| c.number() == 11 && c.file.len() > MOST_BYTES + 1),
    ("12, stored length too small", |c| c.number() == 12 && c.trailer().length < c.file.len() as u32),
    ("12, stored length too large", |c| c.number() == 12 && c.trailer().length > c.file.len() as u32),
    ("12, right to 16 bits", |c| c.number() == 12 && c.trailer().length as u16 == c.file.len() as u16),
    ("12, of 65,536 bytes", |c| c.number() == 12 && c.file.len() == MOST_BYTES),
    ("13, over 64 recordings alone", |c| c.refused_for(Reason::TooManyRecordings) && c.alone()),
    ("13, 65 recordings alone", |c| c.number() == 13 && c.recordings() == 65 && c.alone()),
    ("13, sum alone", |c| c.refused_for(Reason::TablePlace)),
    ("13, both", |c| c.number() == 13 && !c.alone()),
    ("13, sum right to 32 bits", |c| c.refused_for(Reason::TablePlace) && sum_to(c, u32::MAX)),
    ("13, right with a count of 8 bits", |c| c.number() == 13 && right_with_count_to(c, 0xff)),
    ("13, right with a count of 16 bits", |c| c.number() == 13 && right_with_count_to(c, 0xffff)),
    ("13, of 65,536 bytes", |c| c.number() == 13 && c.file.len() == MOST_BYTES),
];

pub const AT_TABLE: [Event; 16] = [
    ("16, the first entry's id", |c| c.number() == 16 && c.twins() == [Of::First]),
    ("16, the previous entry's id", |c| c.number() == 16 && c.twins() == [Of::Last]),
    ("16, another entry's id", |c| c.number() == 16 && c.twins() == [Of::Middle]),
    ("16, middle entry", |c| c.number() == 16 && c.entry() == Of::Middle),
    ("16, last entry", |c| c.number() == 16 && c.entry() == Of::Last),
    ("16, recordings of one set", |c| c.number() == 16 && twins_are_of_one_set(c)),
    ("16, recordings of two sets", |c| c.number() == 16 && !twins_are_of_one_set(c)),
    ("16, two recordings", |c| c.number() == 16 && c.recordings() == 2),
    ("16, 64 recordings", |c| c.number() == 16 && c.recordings() == 64),
    ("15, ends before the table", |c| c.refused_for(Reason::EndOfTriangles) && c.end() < table(c)),
    ("15, less than a triangle before it", |c| {
        c.refused_for(Reason::EndOfTriangles) && c.end() < table(c) && c.end() + 24 > table(c)
    }),
    ("15, ends beyond the table", |c| c.refused_for(Reason::EndOfTriangles) && c.end() > table(c)),
    ("15, ends beyond the file", |c| c.number() == 15 && c.end() > c.file.len() as u64),
    ("15, right to 16 bits", |c| c.number() == 15 && c.end() as u16 == table(c) as u16),
    ("15, of 65,536 bytes", |c| c.number() == 15 && c.file.len() == MOST_BYTES),
    ("15, no recordings", |c| c.refused_for(Reason::TableOfNone)),
];

pub const AT_TRIANGLE: [Event; 15] = [
    ("17, first triangle", |c| c.number() == 17 && c.triangle() == Of::First),
    ("17, middle triangle", |c| c.number() == 17 && c.triangle() == Of::Middle),
    ("17, last triangle", |c| c.number() == 17 && c.triangle() == Of::Last),
    ("17, only for 1,000,001", |c| c.number() == 17 && is_only(c, 1_000_001)),
    ("17, only for -1,000,001", |c| c.number() == 17 && is_only(c, -1_000_001)),
    ("17, only for the largest i32", |c| c.number() == 17 && is_only(c, i32::MAX)),
    ("17, only for the smallest i32", |c| c.number() == 17 && is_only(c, i32::MIN)),
    ("18, first triangle", |c| c.number() == 18 && c.triangle() == Of::First),
    ("18, middle triangle", |c| c.number() == 18 && c.triangle() == Of::Middle),
    ("18, last triangle", |c| c.number() == 18 && c.triangle() == Of::Last),
    ("18, vertices 0 and 1 equal alone", |c| c.number() == 18 && equal(c) == [true, false, false]),
    ("18, vertices 0 and 2 equal alone", |c| c.number() == 18 && equal(c) == [false, true, false]),
    ("18, vertices 1 and 2 equal alone", |c| c.number() == 18 && equal(c) == [false, false, true]),
    ("18, three different vertices", |c| c.number() == 18 && equal(c) == [false; 3]),
    ("18, products past 32 bits", |c| c.number() == 18 && larger_product(c.values()) > 1 << 32),
];

/// Of a file and the number of a recording asked of it.
pub type Asked = (&'static str, fn(&Coverage, usize) -> bool);

pub const ASKED: [Asked; 16] = [
    ("10, any", |c, k| c.accepted() && k >= c.recordings() as usize),
    ("10, the count itself", |c, k| c.accepted() && k == c.recordings() as usize),
    ("10, one more", |c, k| c.accepted() && k == 1 + c.recordings() as usize),
    ("10, a good number to 32 bits", |c, k| c.accepted() && good_to_32_bits(c, k)),
    ("10, the largest of all", |c, k| c.accepted() && k == usize::MAX),
    ("10, of no recordings", |c, _| c.accepted() && c.recordings() == 0),
    ("a refused file, below its count", |c, k| !c.accepted() && k < c.recordings() as usize),
    ("a refused file, not below its count", |c, k| !c.accepted() && k >= c.recordings() as usize),
    ("the first of several", |c, k| c.accepted() && k == 0 && c.recordings() > 1),
    ("between first and last", |c, k| c.accepted() && k > 0 && k + 1 < c.recordings() as usize),
    ("the last of several", |c, k| c.accepted() && k > 0 && k + 1 == c.recordings() as usize),
    ("set 0", |c, k| is_of_set(c, k, 0)),
    ("set 1", |c, k| is_of_set(c, k, 1)),
    ("set 2", |c, k| is_of_set(c, k, 2)),
    ("set 1, last byte 0", |c, k| is_of_set(c, k, 1) && c.lines()[k].last == 0),
    ("set 1, last byte 1", |c, k| is_of_set(c, k, 1) && c.lines()[k].last == 1),
];

fn good_to_32_bits(c: &Coverage, k: usize) -> bool {
    k > u32::MAX as usize && (k as u32) < c.recordings()
}

fn is_of_set(c: &Coverage, k: usize, set: u8) -> bool {
    c.accepted() && c.lines().get(k).map_or(false, |line| line.set == set)
}

fn table(c: &Coverage) -> u64 {
    u64::from(c.trailer().table)
}

fn near_ids(c: &Coverage, byte: u32) -> bool {
    let lines = c.lines();
    lines.iter().any(|one| lines.iter().any(|other| one.id < other.id && (one.id ^ other.id) & !byte == 0))
}

fn sum_to(c: &Coverage, bits: u32) -> bool {
    (c.trailer().end() ^ c.file.len() as u64) & u64::from(bits) == 0
}

fn right_with_count_to(c: &Coverage, bits: u32) -> bool {
    let mut trailer = c.trailer();
    trailer.recordings &= bits;
    trailer.recordings <= 64 && trailer.end() == c.file.len() as u64
}

fn twins_are_of_one_set(c: &Coverage) -> bool {
    let (line, lines) = (c.refused_line(), c.lines());
    lines.iter().filter(|other| other.id == line.id).all(|other| other.set == line.set)
}

fn is_only(c: &Coverage, value: i32) -> bool {
    only_out_of_range(c.values()).map_or(false, |found| found.1 == value)
}

/// Of the refused triangle.
fn equal(c: &Coverage) -> [bool; 3] {
    equal_vertices(c.values())
}
