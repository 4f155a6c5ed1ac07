//! The ring's corners, each with its kind and its position, and the area that they enclose.

use super::lines::{Parameters, Signs};
use super::list::List;
use super::numbers::{cross, difference, finite, Point};
use super::orders::ends_of;
use super::ring::{Place, Ring};
use super::trace::Trace;

/// What a corner of the ring is.
#[derive(Clone, Copy, Debug, PartialEq)]
pub enum Kind {
    Vertex(usize),
    Corner(usize),
    /// `t` counts from the end that is plus on the line, whichever way the edge runs.
    Crossing {
        edge: usize,
        line: usize,
        t: f64,
    },
}

#[derive(Clone, Copy, Debug)]
pub struct RingCorner {
    pub kind: Kind,
    pub position: Point,
}

pub type Positions = List<Point, 6>;

/// The trace is told each corner; for room and area its position is kept.
pub fn place_corners<T: Trace>(
    positions: &mut Positions,
    ring: &Ring,
    u: &[Point; 3],
    v: &[Point; 3],
    parameters: &[Parameters; 3],
    signs: &[Signs; 3],
    trace: &mut T,
) -> Option<()> {
    for place in ring.as_slice() {
        let corner = match *place {
            Place::Vertex(vertex) => RingCorner { kind: Kind::Vertex(vertex), position: u[vertex] },
            Place::Corner(corner) => RingCorner { kind: Kind::Corner(corner), position: v[corner] },
            Place::Crossing { edge, line } => crossing_corner(edge, line, u, parameters, signs, trace)?,
        };
        trace.corner(corner);
        positions.push(corner.position);
    }
    Some(())
}

/// Measured from the end that is plus on the line.
pub fn crossing_corner<T: Trace>(
    edge: usize,
    line: usize,
    u: &[Point; 3],
    parameters: &[Parameters; 3],
    signs: &[Signs; 3],
    trace: &mut T,
) -> Option<RingCorner> {
    let (start, end) = ends_of(edge);
    let (p, q) = if signs[start].plus(line) { (start, end) } else { (end, start) };
    let (a_p, a_q) = (parameters[p][line], parameters[q][line]);
    let denominator = a_p - a_q;
    // Looked at by itself: a quotient by an infinity is a finite zero and would hide it.
    if !denominator.is_finite() {
        trace.denominator_overflowed();
        return None;
    }
    let t = finite(a_p / denominator)?;
    let position = Point { x: component(u[p].x, u[q].x, t)?, y: component(u[p].y, u[q].y, t)? };
    Some(RingCorner { kind: Kind::Crossing { edge, line, t }, position })
}

fn component(p: f64, q: f64, t: f64) -> Option<f64> {
    let span = finite(q - p)?;
    let step = finite(t * span)?;
    finite(p + step)
}

pub fn area_of(corners: &[Point]) -> Option<f64> {
    let sum = area_sum(corners)?;
    Some(if sum < 0.0 { -sum * 0.5 } else { sum * 0.5 })
}

/// What the area is half of, or half of its negation.
pub fn area_sum(corners: &[Point]) -> Option<f64> {
    let mut sum = 0.0;
    if let Some((&first, others)) = corners.split_first() {
        for pair in others.windows(2) {
            let near = difference(pair[0], first)?;
            let far = difference(pair[1], first)?;
            sum = finite(sum + cross(near, far)?)?;
        }
    }
    Some(sum)
}
