//! Upright boxes around the triangles of a file and around whole recordings, in whole centimetres. The rules
//! for lists do without those of recordings; where a program that skips by them could go wrong, they tell.

use crate::footprint::lines_of;
use crate::footprint::stored::{triangle, Line, TEST, TRIANGLE};

#[derive(Clone, Copy, Debug, PartialEq, Eq)]
pub struct Upright {
    /// The least and the largest x and y.
    pub low: [i32; 2],
    pub high: [i32; 2],
}

impl Upright {
    pub fn of([x0, y0, x1, y1, x2, y2]: [i32; 6]) -> Upright {
        Upright {
            low: [x0.min(x1).min(x2), y0.min(y1).min(y2)],
            high: [x0.max(x1).max(x2), y0.max(y1).max(y2)],
        }
    }

    /// Around all of them, of which there is one at least.
    pub fn around(boxes: &[Upright]) -> Upright {
        boxes.iter().fold(boxes[0], |one, other| Upright {
            low: [0, 1].map(|axis| one.low[axis].min(other.low[axis])),
            high: [0, 1].map(|axis| one.high[axis].max(other.high[axis])),
        })
    }

    /// Whether they share a point.
    pub fn meets(&self, other: &Upright) -> bool {
        (0..2).all(|axis| self.low[axis] <= other.high[axis] && other.low[axis] <= self.high[axis])
    }
}

/// Of a recording's part of a file, triangle by triangle.
pub fn boxes_of(part: &[u8]) -> Vec<Upright> {
    part.chunks_exact(TRIANGLE).map(|bytes| Upright::of(triangle(bytes))).collect()
}

/// Triangle pairs of test and training recordings of a good file whose boxes share a point. What is no test
/// is training.
pub fn near_pairs(file: &[u8]) -> usize {
    let lines = lines_of(file).unwrap_or_default();
    let (tests, trainings): (Vec<_>, Vec<_>) = lines.iter().partition(|line| line.set == TEST);
    let boxes = |lines: Vec<&Line>| -> Vec<Upright> {
        lines.into_iter().flat_map(|line| boxes_of(line.part(file))).collect()
    };
    let trainings = boxes(trainings);
    boxes(tests).iter().map(|u| trainings.iter().filter(|v| u.meets(v)).count()).sum()
}
