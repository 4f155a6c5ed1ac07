//! A corner that was asked for, and what can be seen by it, so that a comparison can say what it has covered.

use std::ops::Range;

use super::places::BEYOND_32_BITS;
use super::{Corner, FoundRing, CORNER_OF_V, CROSSING, VERTEX_OF_U};
use crate::case::Case;
use crate::coverage::{is_minus_zero, Coverage};
use crate::decision::is_far;
use crate::triangles::{Refusal, ROOM, VALUES};

pub struct Asked<'a> {
    /// Its room is for the rules that `coverage` was told of; for a corner none is lent.
    case: &'a Case,
    coverage: &'a Coverage,
    ring: &'a FoundRing,
    pub place: usize,
    pub corner: Corner,
}

pub type Event = (&'static str, fn(&Asked) -> bool);

/// Of corners that were handed back.
pub const ANSWERED: [Event; 17] = [
    ("crossing, P is the start of the edge", |a| a.measured_from_start() == Some(true)),
    ("crossing, P is the finish of the edge", |a| a.measured_from_start() == Some(false)),
    ("crossing, V turned over", |a| a.is_crossing() && a.v_is_turned_over()),
    ("t of 0.0", |a| a.is_crossing() && a.corner.t.to_bits() == 0),
    ("t of -0.0", |a| is_minus_zero(a.corner.t)),
    ("t of 1", |a| a.corner.t == 1.0),
    ("t between 0 and 1", |a| 0.0 < a.corner.t && a.corner.t < 1.0),
    ("t too small for a normal number", |a| a.corner.t.is_subnormal()),
    ("-0.0 in the position", |a| is_minus_zero(a.corner.x) || is_minus_zero(a.corner.y)),
    ("a vertex of U where V has a corner", |a| a.corner.kind == VERTEX_OF_U && a.lies_on_one_of(6..12)),
    ("a corner of V where U has a vertex", |a| a.corner.kind == CORNER_OF_V && a.lies_on_one_of(0..6)),
    ("a crossing where U has a vertex", |a| a.is_crossing() && a.lies_on_one_of(0..6)),
    ("a crossing where V has a corner", |a| a.is_crossing() && a.lies_on_one_of(6..12)),
    ("where the corner before it is", |a| a.place > 0 && a.lies_where(a.place - 1)),
    ("where the first corner is", |a| a.place > 1 && a.lies_where(0)),
    ("a room would have been too short", |a| a.lacks_a_room()),
    ("the boxes share no point", |a| is_far(&a.case.values)),
];

/// Of refusals. A ring that was found counts though its pair is refused later, by a position or by the area.
pub const REFUSED: [Event; 23] = [
    ("1, a room would have been long enough", |a| a.refused_with(1) && !a.lacks_a_room()),
    ("1, no values", |a| a.refused_with(1) && a.case.values.is_empty()),
    ("1, one value too few", |a| a.refused_with(1) && a.case.values.len() == VALUES - 1),
    ("1, one value too many", |a| a.refused_with(1) && a.case.values.len() == VALUES + 1),
    ("not 1, a room would have been too short", |a| !a.refused_with(1) && a.lacks_a_room()),
    ("1 at the largest place", |a| a.refused_with(1) && a.at_the_largest()),
    ("2 at the largest place", |a| a.refused_with(2) && a.at_the_largest()),
    ("3 at the largest place", |a| a.refused_with(3) && a.at_the_largest()),
    ("4 at the largest place", |a| a.refused_with(4) && a.at_the_largest()),
    ("5 at the largest place", |a| a.refused_with(5) && a.at_the_largest()),
    ("3, 4 or 5, the boxes share no point", |a| (3..6).contains(&a.corner.number) && is_far(&a.case.values)),
    ("4, its own position overflows", |a| a.at_position() && a.overflows(a.place)),
    ("4, the position of one before it overflows", |a| a.other_overflows(0..a.place)),
    ("4, the position of one behind it overflows", |a| {
        a.other_overflows(a.place.saturating_add(1)..a.ring_length())
    }),
    ("4, the area alone overflows", |a| a.at_area() && a.place < a.ring_length()),
    ("4 by a position, behind the ring", |a| a.at_position() && a.place >= a.ring_length()),
    ("4 by the area, behind the ring", |a| a.at_area() && a.place >= a.ring_length()),
    ("6, no ring", |a| a.refused_with(6) && a.ring_length() == 0),
    ("6 at n", |a| a.behind_the_ring(a.ring_length())),
    ("6 at n + 1", |a| a.behind_the_ring(a.ring_length() + 1)),
    ("6 at n, which is 6", |a| a.behind_the_ring(6) && a.ring_length() == 6),
    ("6 at the largest place, with a ring", |a| a.behind_the_ring(usize::MAX)),
    ("6 at 2^32 and a place of the ring", |a| {
        a.place >= BEYOND_32_BITS && a.place - BEYOND_32_BITS < a.ring_length() && a.refused_with(6)
    }),
];

/// n of an answer, or what it would have been but for a position or the area.
pub fn ring_length(ring: &FoundRing, coverage: &Coverage) -> usize {
    ring.length().unwrap_or(coverage.ring_places().len())
}

impl<'a> Asked<'a> {
    /// `coverage` is told of the rules with the room of the case.
    pub fn of(case: &'a Case, coverage: &'a Coverage, ring: &'a FoundRing, place: usize) -> Self {
        Asked { case, coverage, ring, place, corner: ring.corner(place) }
    }

    pub fn refused_with(&self, number: u32) -> bool {
        self.corner.number == number
    }

    fn is_crossing(&self) -> bool {
        self.corner.kind == CROSSING
    }

    /// None of other corners, and where the rules had too short a room to tell.
    fn measured_from_start(&self) -> Option<bool> {
        let Corner { edge, line, .. } = self.corner;
        let told = self.is_crossing() && self.coverage.accepted();
        told.then(|| self.coverage.starts_with_plus(edge as usize, line as usize))
    }

    fn v_is_turned_over(&self) -> bool {
        let v = &self.case.values[6..];
        (v[2] - v[0]) * (v[5] - v[1]) < (v[3] - v[1]) * (v[4] - v[0])
    }

    fn lies_on_one_of(&self, coordinates: Range<usize>) -> bool {
        let mut points = self.case.values[coordinates].chunks_exact(2);
        points.any(|point| point == [self.corner.x, self.corner.y])
    }

    fn lies_where(&self, other: usize) -> bool {
        let other = self.ring.corner(other);
        (other.x, other.y) == (self.corner.x, self.corner.y)
    }

    fn lacks_a_room(&self) -> bool {
        self.case.room_length < ROOM
    }

    fn at_the_largest(&self) -> bool {
        self.place == usize::MAX
    }

    fn ring_length(&self) -> usize {
        ring_length(self.ring, self.coverage)
    }

    fn behind_the_ring(&self, place: usize) -> bool {
        self.refused_with(6) && self.ring_length() > 0 && self.place == place
    }

    fn at_position(&self) -> bool {
        self.coverage.refusal == Some(Refusal::OverflowAtPosition)
    }

    fn at_area(&self) -> bool {
        self.coverage.refusal == Some(Refusal::OverflowAtArea)
    }

    /// Whether the corner that the ring has at that place, taken by itself, has no position.
    fn overflows(&self, place: usize) -> bool {
        let ring = self.coverage.ring_places();
        ring.get(place).map_or(false, |place| self.coverage.has_no_position(place))
    }

    /// One of these places has a corner without a position, and the place that was asked for has not.
    fn other_overflows(&self, mut others: Range<usize>) -> bool {
        let fine = self.at_position() && self.place < self.ring_length() && !self.overflows(self.place);
        fine && others.any(|place| self.overflows(place))
    }
}
