//! A pair of triangles goes in; whether it overlaps, touches or is apart comes out, or a refusal. Where the
//! upright boxes around the two share no point the pair is apart. Of all others, what the rules for triangles
//! answer says it, and nothing else.

#[cfg(test)]
mod boxes;
#[cfg(test)]
mod worked;

use crate::triangles::{intersect, Answer, ROOM, VALUES};

/// What a pair is that is not refused, with the numbers of the C interface.
pub const APART: u32 = 0;
pub const TOUCHING: u32 = 1;
pub const OVERLAPPING: u32 = 2;

/// Laid out as the C interface's `meskelow_decision`.
#[repr(C)]
#[derive(Clone, Copy, Debug, Default)]
pub struct Decision {
    pub number: u32,
    /// Zero of a refused pair too: only the number tells it from one that is apart.
    pub kind: u32,
    pub area: f64,
}

/// Never inlined, so that a caller pays for a call here as for one of a library.
#[inline(never)]
pub fn decide(values: &[f64]) -> Decision {
    by_the_triangle_rules(values).unwrap_or_default()
}

/// None of a pair that is not given to them, because its boxes share no point.
pub fn by_the_triangle_rules(values: &[f64]) -> Option<Decision> {
    if is_far(values) {
        return None;
    }
    Some(decision_of(&intersect(values, &mut [0.0; ROOM])))
}

/// Whether there are two boxes, and they share no point. Without twelve values, all of them finite, there
/// are none: the triangle rules refuse such a pair.
pub fn is_far(values: &[f64]) -> bool {
    let whole = values.len() == VALUES && values.iter().all(|value| value.is_finite());
    whole && !share_a_point(Upright::around(&values[..6]), Upright::around(&values[6..]))
}

/// A box whose sides are parallel to the axes, with its border.
#[derive(Clone, Copy, Debug)]
struct Upright {
    left: f64,
    right: f64,
    bottom: f64,
    top: f64,
}

impl Upright {
    fn around(triangle: &[f64]) -> Upright {
        let [x, y] = [0, 1].map(|axis| [triangle[axis], triangle[2 + axis], triangle[4 + axis]]);
        Upright { left: least(x), right: largest(x), bottom: least(y), top: largest(y) }
    }
}

/// Comparisons only: nothing is rounded, and zeros of both signs are the same place.
fn share_a_point(one: Upright, other: Upright) -> bool {
    one.left <= other.right && other.left <= one.right && one.bottom <= other.top && other.bottom <= one.top
}

fn least([a, b, c]: [f64; 3]) -> f64 {
    let less = if b < a { b } else { a };
    if c < less {
        c
    } else {
        less
    }
}

fn largest([a, b, c]: [f64; 3]) -> f64 {
    let larger = if b > a { b } else { a };
    if c > larger {
        c
    } else {
        larger
    }
}

/// By the halved area: a sum of 2^−1074 is above zero, but half of it is zero. A refused answer has no ring
/// and no area.
pub fn decision_of(answer: &Answer) -> Decision {
    let kind = if answer.n == 0 {
        APART
    } else if answer.area > 0.0 {
        OVERLAPPING
    } else {
        TOUCHING
    };
    Decision { number: answer.number, kind, area: answer.area }
}

impl Decision {
    /// As the leak list reads it: a refused pair overlaps.
    pub fn overlaps(&self) -> bool {
        self.number != 0 || self.kind == OVERLAPPING
    }

    pub fn touches(&self) -> bool {
        self.number == 0 && self.kind == TOUCHING
    }
}
