//! A pair of triangles and a place in its ring go in; the corner there comes out, with its kind and its
//! position, or a refusal. The rules for triangles say it; how the boxes around the two lie is no matter.

pub mod asked;
pub mod places;
pub mod tally;

#[cfg(test)]
mod worked;

use crate::triangles::list::List;
use crate::triangles::numbers::Point;
use crate::triangles::positions::{Kind, RingCorner};
use crate::triangles::trace::Trace;
use crate::triangles::{intersect_traced, ROOM};

/// What a corner is, with the numbers of the C interface.
pub const VERTEX_OF_U: u32 = 0;
pub const CORNER_OF_V: u32 = 1;
pub const CROSSING: u32 = 2;

/// The place is not below n.
const NO_SUCH_PLACE: u32 = 6;

/// Laid out as the C interface's `meskelow_corner`. What its kind does not have is zero.
#[repr(C)]
#[derive(Clone, Copy, Debug, Default)]
pub struct Corner {
    pub number: u32,
    /// Zero of a refused one too: only the number tells it from a vertex of U.
    pub kind: u32,
    pub which: u32,
    pub edge: u32,
    pub line: u32,
    pub t: f64,
    pub x: f64,
    pub y: f64,
}

/// Never inlined, so that a caller pays for a call here as for one of a library.
#[inline(never)]
pub fn corner_at(values: &[f64], place: usize) -> Corner {
    let mut ring = FoundRing::none();
    ring.find(values);
    ring.corner(place)
}

type Corners = List<RingCorner, 6>;

/// The rules tell each corner that they place.
impl Trace for Corners {
    fn corner(&mut self, corner: RingCorner) {
        self.push(corner);
    }
}

/// All corners of a pair, to ask more than one from.
pub struct FoundRing {
    /// Of what refuses the pair.
    number: u32,
    /// In turn, and all of them unless the pair is refused.
    corners: Corners,
}

impl FoundRing {
    pub fn of(values: &[f64]) -> FoundRing {
        let mut ring = FoundRing::none();
        ring.find(values);
        ring
    }

    fn none() -> FoundRing {
        let filler = RingCorner { kind: Kind::Vertex(0), position: Point { x: 0.0, y: 0.0 } };
        FoundRing { number: 0, corners: Corners::new(filler) }
    }

    /// The whole answer is judged, with a room that is long enough. In place, because a copy of all corners
    /// would be much of the cost of one.
    fn find(&mut self, values: &[f64]) {
        self.number = intersect_traced(values, &mut [0.0; ROOM], &mut self.corners).number;
    }

    /// n, if the pair is not refused.
    pub fn length(&self) -> Option<usize> {
        (self.number == 0).then(|| self.corners.len())
    }

    pub fn corner(&self, place: usize) -> Corner {
        let refused = |number: u32| Corner { number, ..Corner::default() };
        if self.number != 0 {
            return refused(self.number);
        }
        self.corners.as_slice().get(place).map_or(refused(NO_SUCH_PLACE), |corner| Corner::from(*corner))
    }
}

impl From<RingCorner> for Corner {
    fn from(corner: RingCorner) -> Corner {
        let Point { x, y } = corner.position;
        let at = Corner { x, y, ..Corner::default() };
        match corner.kind {
            Kind::Vertex(which) => Corner { kind: VERTEX_OF_U, which: which as u32, ..at },
            Kind::Corner(which) => Corner { kind: CORNER_OF_V, which: which as u32, ..at },
            Kind::Crossing { edge, line, t } => {
                Corner { kind: CROSSING, edge: edge as u32, line: line as u32, t, ..at }
            }
        }
    }
}

impl Corner {
    /// Every field in turn, to be compared bit for bit.
    pub fn bits(&self) -> [u64; 8] {
        let whole = [self.number, self.kind, self.which, self.edge, self.line].map(u64::from);
        let [t, x, y] = [self.t, self.x, self.y].map(f64::to_bits);
        [whole[0], whole[1], whole[2], whole[3], whole[4], t, x, y]
    }
}
