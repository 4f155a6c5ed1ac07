//! A footprint file, the id of a recording and lent room go in; the recording's triangles come out as
//! well-known text, at the front of the room. Everything follows the rules, test by test.

mod numbers;
pub mod parser;

#[cfg(test)]
mod worked;

use crate::footprint::part_with;
use crate::footprint::stored::{triangle, TRIANGLE};
use crate::writer::Written;
use numbers::{put, put_number, width_of};

pub const ROOM_TOO_SHORT: u32 = 20;
pub const NO_SUCH_ID: u32 = 21;

/// No file has so many triangles that a text would be longer.
pub const MOST_TEXT: usize = 256_545;

const OPENING: &[u8; 20] = b"GEOMETRYCOLLECTION (";
const POLYGON: &[u8; 10] = b"POLYGON ((";
const COMMA: &[u8; 2] = b", ";
const POLYGON_END: &[u8; 2] = b"))";
const CLOSING: &[u8; 1] = b")";

/// Never inlined, so that a caller pays for a call here as for one of a library.
#[inline(never)]
pub fn wkt(file: &[u8], id: u32, room: &mut [u8]) -> Written {
    let refused = |number: u32, place: u32| Written { number, place, length: 0 };
    let part = match part_with(file, id) {
        Err(of_file) => return refused(of_file.reason.number(), of_file.place),
        Ok(None) => return refused(NO_SUCH_ID, 0),
        Ok(Some(part)) => part,
    };
    let length = length_of(part);
    match room.get_mut(..length) {
        None => refused(ROOM_TOO_SHORT, 0),
        Some(text) => {
            fill(text, part);
            Written { number: 0, place: 0, length }
        }
    }
}

/// Bytes of the text of a recording's triangles, of which there is one at least.
pub fn length_of(part: &[u8]) -> usize {
    let polygons: usize = part.chunks_exact(TRIANGLE).map(|bytes| polygon_length(triangle(bytes))).sum();
    let commas = COMMA.len() * (part.len() / TRIANGLE - 1);
    OPENING.len() + polygons + commas + CLOSING.len()
}

/// Four points with three commas between them; the first point stands there twice.
fn polygon_length([x0, y0, x1, y1, x2, y2]: [i32; 6]) -> usize {
    let point = |x: i32, y: i32| width_of(x) + 1 + width_of(y);
    let points = 2 * point(x0, y0) + point(x1, y1) + point(x2, y2);
    POLYGON.len() + points + 3 * COMMA.len() + POLYGON_END.len()
}

/// Writes every byte of the text, which is just as long as it has to be.
fn fill(text: &mut [u8], part: &[u8]) {
    let mut rest = put(text, OPENING);
    for (k, bytes) in part.chunks_exact(TRIANGLE).enumerate() {
        if k > 0 {
            rest = put(rest, COMMA);
        }
        rest = put(rest, POLYGON);
        let [x0, y0, x1, y1, x2, y2] = triangle(bytes);
        for (x, y, end) in [(x0, y0, COMMA), (x1, y1, COMMA), (x2, y2, COMMA), (x0, y0, POLYGON_END)] {
            rest = put_number(rest, x);
            rest = put(rest, b" ");
            rest = put_number(rest, y);
            rest = put(rest, end);
        }
    }
    put(rest, CLOSING);
}
