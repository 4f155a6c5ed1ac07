//! What one draft has in it, so that a comparison can say what it has covered.

use std::cmp::Ordering;

use super::calls::Call;
use super::draft::Draft;
use super::faults::{faults_in, Fault};
use crate::files::coverage::{which, Of, Shapes};
use crate::files::draft::Triangle;
use crate::writer::Reason;

/// The last stage, at which the room is looked at.
pub const AT_ROOM: usize = 7;

pub struct Coverage<'a> {
    pub draft: &'a Draft,
    /// In the order of the tests; none of a draft that is written if the room is long enough.
    faults: Vec<Fault>,
    pub shapes: Shapes,
}

impl<'a> Coverage<'a> {
    pub fn of(draft: &'a Draft) -> Self {
        let mut coverage = Coverage { draft, faults: faults_in(draft), shapes: Shapes::default() };
        if coverage.good() {
            coverage.shapes = Shapes::among((0..draft.triangles()).map(|k| draft.triangle(k)));
        }
        coverage
    }

    pub fn good(&self) -> bool {
        self.faults.is_empty()
    }

    /// Bytes of the file, if there will be one.
    pub fn length(&self) -> Option<usize> {
        Some(self.draft.length()).filter(|_| self.good())
    }

    /// 0 if it is written where there is room.
    pub fn number(&self) -> u32 {
        self.faults.first().map_or(0, |fault| fault.reason.number())
    }

    pub fn refused_for(&self, reason: Reason) -> bool {
        self.faults.first().map_or(false, |fault| fault.reason == reason)
    }

    /// The same, and there is nothing else wrong.
    pub fn refused_alone_for(&self, reason: Reason) -> bool {
        self.faults.len() == 1 && self.refused_for(reason)
    }

    pub fn has(&self, reason: Reason) -> bool {
        self.faults.iter().any(|fault| fault.reason == reason)
    }

    /// The same of one entry or triangle.
    pub fn has_at(&self, reason: Reason, at: usize) -> bool {
        self.faults.contains(&Fault { reason, at })
    }

    /// Refused at the first stage, though the second would have been another refusal.
    pub fn before(&self, first: usize, second: usize) -> bool {
        self.at(first) && self.faults.iter().any(|fault| fault.stage() == second)
    }

    fn at(&self, stage: usize) -> bool {
        self.faults.first().map_or(false, |fault| fault.stage() == stage)
    }

    /// The same, and the other fault is of a later, an earlier or the same entry or triangle.
    pub fn before_at(&self, first: usize, second: usize, side: Ordering) -> bool {
        let there = |fault: &Fault| fault.stage() == second && fault.at.cmp(&self.place()) == side;
        self.at(first) && self.faults.iter().skip(1).any(there)
    }

    /// Refused before the room is looked at, which is too short as well.
    pub fn before_room(&self, stage: usize, call: &Call) -> bool {
        self.at(stage) && call.room < self.draft.length()
    }

    /// Which entry or triangle it was refused for.
    pub fn place(&self) -> usize {
        self.faults.first().map_or(0, |fault| fault.at)
    }

    pub fn entry(&self) -> Of {
        which(self.place(), self.draft.recordings())
    }

    pub fn which_triangle(&self) -> Of {
        which(self.place(), self.draft.triangles())
    }

    /// The one that was refused.
    pub fn triangle(&self) -> Triangle {
        self.draft.triangle(self.place())
    }

    /// The one entry before the refused one that has its id too.
    pub fn twin(&self) -> Option<usize> {
        let (ids, k) = (&self.draft.ids, self.place());
        let mut all = (0..k).filter(|earlier| ids[*earlier] == ids[k]);
        all.next().filter(|_| all.next().is_none())
    }
}
