//! What one file has in it, so that a comparison can say what it has covered.

use super::faults::{faults_in, trailer_of};
use super::shapes::cross;
use crate::footprint::stored::{triangle, Line, Trailer, ENTRY, TRIANGLE};
use crate::footprint::{Reason, Refused, FARTHEST};

pub struct Coverage<'a> {
    pub file: &'a [u8],
    /// In the order of the tests; none of a good file.
    faults: Vec<Refused>,
    trailer: Option<Trailer>,
    pub shapes: Shapes,
}

/// Which of many an entry or a triangle is; of one alone, the first.
#[derive(Clone, Copy, Debug, PartialEq, Eq)]
pub enum Of {
    First,
    Middle,
    Last,
}

/// What there is among good triangles.
#[derive(Default)]
pub struct Shapes {
    pub highest: bool,
    pub lowest: bool,
    pub clockwise: bool,
    pub anticlockwise: bool,
    pub zero_to_32_bits: bool,
    pub thin: bool,
}

impl<'a> Coverage<'a> {
    pub fn of(file: &'a [u8]) -> Self {
        let (faults, trailer) = (faults_in(file), trailer_of(file));
        let mut coverage = Coverage { file, faults, trailer, shapes: Shapes::default() };
        if coverage.accepted() {
            coverage.shapes = Shapes::among(file[..coverage.table()].chunks_exact(TRIANGLE).map(triangle));
        }
        coverage
    }

    pub fn accepted(&self) -> bool {
        self.faults.is_empty()
    }

    pub fn refused_for(&self, reason: Reason) -> bool {
        self.faults.first().map_or(false, |fault| fault.reason == reason)
    }

    /// 0 if it is accepted.
    pub fn number(&self) -> u32 {
        self.faults.first().map_or(0, |fault| fault.reason.number())
    }

    fn place(&self) -> usize {
        self.faults.first().map_or(0, |fault| fault.place as usize)
    }

    pub fn trailer(&self) -> Trailer {
        self.trailer.unwrap_or(Trailer { table: 0, recordings: 0, length: 0 })
    }

    pub fn recordings(&self) -> u32 {
        self.trailer().recordings
    }

    fn table(&self) -> usize {
        self.trailer().table as usize
    }

    /// Nothing else at the same place leads to the same number.
    pub fn alone(&self) -> bool {
        let same =
            |fault: &&Refused| fault.reason.number() == self.number() && fault.place as usize == self.place();
        self.faults.iter().filter(same).count() == 1
    }

    /// Refused with the first number, though the second would have been another refusal.
    pub fn before(&self, first: u32, second: u32) -> bool {
        self.number() == first && self.faults.iter().any(|fault| fault.reason.number() == second)
    }

    /// The same, and the other fault is further on, further back or at the same place.
    pub fn before_at(&self, first: u32, second: u32, side: std::cmp::Ordering) -> bool {
        let there = |fault: &Refused| {
            fault.reason.number() == second && (fault.place as usize).cmp(&self.place()) == side
        };
        self.number() == first && self.faults.iter().skip(1).any(there)
    }

    pub fn entry(&self) -> Of {
        which(self.refused_entry(), self.recordings() as usize)
    }

    pub fn refused_entry(&self) -> usize {
        (self.place() - self.table()) / ENTRY
    }

    pub fn refused_line(&self) -> Line {
        self.lines()[self.refused_entry()]
    }

    pub fn triangle(&self) -> Of {
        which(self.place() / TRIANGLE, self.table() / TRIANGLE)
    }

    /// Of the triangle that was refused.
    pub fn values(&self) -> [i32; 6] {
        triangle(&self.file[self.place()..])
    }

    /// The entries before the refused one that have its id too.
    pub fn twins(&self) -> Vec<Of> {
        let lines = self.lines();
        let k = self.refused_entry();
        (0..k).filter(|earlier| lines[*earlier].id == lines[k].id).map(|earlier| which(earlier, k)).collect()
    }

    pub fn lines(&self) -> Vec<Line> {
        let table = self.file.get(self.table()..).unwrap_or(&[]);
        table.chunks_exact(ENTRY).take(self.recordings() as usize).map(Line::read).collect()
    }

    /// Where the last entry's triangles end.
    pub fn end(&self) -> u64 {
        self.lines().last().map_or(0, |line| u64::from(line.first) + line.bytes())
    }
}

pub fn which(index: usize, count: usize) -> Of {
    match index {
        0 => Of::First,
        _ if index + 1 == count => Of::Last,
        _ => Of::Middle,
    }
}

impl Shapes {
    pub fn among(triangles: impl Iterator<Item = [i32; 6]>) -> Shapes {
        let mut shapes = Shapes::default();
        for values in triangles {
            let area = cross(values);
            let long = (i64::from(values[2]) - i64::from(values[0])).abs() > 1 << 19;
            shapes.highest |= values.contains(&FARTHEST);
            shapes.lowest |= values.contains(&-FARTHEST);
            shapes.clockwise |= area < 0;
            shapes.anticlockwise |= area > 0;
            shapes.zero_to_32_bits |= area & 0xffff_ffff == 0;
            shapes.thin |= long && (area == 1 || area == -1);
        }
        shapes
    }
}
