//! A recording that is asked for by its id, and its text, where there is one.

use super::coverage::Coverage;
use crate::files::coverage::{which, Of};
use crate::files::draft::Triangle;
use crate::files::shapes::cross;
use crate::footprint::part_with;
use crate::footprint::stored::{triangle, TRIANGLE};
use crate::wkt::parser::triangles_in;
use crate::wkt::{length_of, wkt};
use crate::writer::Written;

pub struct Asked<'a> {
    pub of: &'a Coverage<'a>,
    pub id: u32,
    /// What the second program says if the room will do.
    pub answer: Written,
    /// Empty where it is refused, and so are the triangles.
    pub text: Vec<u8>,
    pub triangles: Vec<Triangle>,
    /// The first entry that has the id, in a refused file too.
    pub entry: Option<usize>,
}

impl<'a> Asked<'a> {
    pub fn of(of: &'a Coverage<'a>, id: u32) -> Self {
        let part = part_with(of.file, id).ok().flatten().unwrap_or(&[]);
        let mut text = vec![0; if part.is_empty() { 0 } else { length_of(part) }];
        let answer = wkt(of.file, id, &mut text);
        let triangles = part.chunks_exact(TRIANGLE).map(triangle).collect();
        let entry = of.lines.iter().position(|line| line.id == id);
        Asked { of, id, answer, text, triangles, entry }
    }

    /// Whether the text, read by what knows nothing of its writer, has the triangles that are stored.
    pub fn is_read_back(&self) -> bool {
        let text = std::str::from_utf8(&self.text);
        self.answer.number != 0 || text.ok().and_then(triangles_in).as_ref() == Some(&self.triangles)
    }

    pub fn answered(&self) -> bool {
        self.answer.number == 0
    }

    pub fn length(&self) -> usize {
        self.text.len()
    }

    pub fn set(&self) -> Option<u8> {
        self.entry.map(|entry| self.of.lines[entry].set)
    }

    /// Which of several recordings it is.
    pub fn place(&self) -> Option<Of> {
        let several = self.of.lines.len() > 1;
        self.entry.filter(|_| several).map(|entry| which(entry, self.of.lines.len()))
    }

    pub fn has_orientation(&self, clockwise: bool) -> bool {
        self.triangles.iter().any(|triangle| (cross(*triangle) < 0) == clockwise)
    }

    /// Whether another entry has the id too, so that the file is refused.
    pub fn is_there_twice(&self) -> bool {
        self.of.lines.iter().filter(|line| line.id == self.id).count() > 1
    }

    /// Of a refused file: how many bytes from the front of the recording's triangles the refused one is.
    pub fn refused_triangle(&self) -> Option<(i64, i64)> {
        let line = self.of.lines[self.entry?];
        Some((i64::from(self.of.verdict.place) - i64::from(line.first), line.bytes() as i64))
    }

    /// Of a refused file: how many bytes behind the recording's entry the refused one is.
    pub fn refused_entry(&self) -> Option<i64> {
        let here = u64::from(self.of.trailer.table) + 12 * self.entry? as u64;
        Some(i64::from(self.of.verdict.place) - here as i64)
    }

    /// Of a refused file: bytes that would hold the recording's text, whatever numbers it has.
    pub fn ample_room(&self) -> Option<usize> {
        self.entry.map(|entry| 21 + 120 * usize::from(self.of.lines[entry].count))
    }
}
