//! Rows of triangles far from one another, of which one leaves its row to where it meets those of the others:
//! at either end of the row, of eight, of sixteen, or anywhere.

use super::outlines::filling;
use super::recordings::{file_of, placed, seen_from_any_side, Part};
use crate::files::draft::Triangle;
use crate::footprint::stored::{HELD_BACK, TEST, TRAINING};
use crate::random::Random;

/// How many triangles a row has.
const COUNTS: [usize; 13] = [1, 2, 7, 8, 9, 15, 16, 17, 31, 32, 33, 48, 64];
/// Places in a row, where it is so long.
const ENDS: [usize; 9] = [0, 7, 8, 15, 16, 23, 24, 31, 32];

pub fn file(random: &mut Random) -> Vec<u8> {
    let mut recordings: Vec<(u8, Part)> = Vec::new();
    let where_they_meet = random.pick(&[-60, 0, 100, 500]);
    for (set, side) in [(TEST, 1), (TRAINING, -1)] {
        for k in 0..random.pick(&[2, 3, 4]) {
            let mut part = row(random, side * (1_000 + 100 * k));
            if !random.once_in(8) {
                let place = place_in(random, part.len());
                part[place] = leaving(random, where_they_meet, side);
            }
            let set = if random.once_in(12) { HELD_BACK } else { set };
            recordings.push((set, part));
        }
    }
    random.shuffle(&mut recordings);
    let (sets, mut parts): (Vec<u8>, Vec<Part>) = recordings.into_iter().unzip();
    seen_from_any_side(&mut parts, random);
    placed(&mut parts, random);
    file_of(&parts, &sets, random)
}

fn row(random: &mut Random, y: i32) -> Part {
    let count = random.pick(&COUNTS) as i32;
    (0..count).map(|k| filling(random, [8 * k, y], [8 * k + 5, y + 5])).collect()
}

fn place_in(random: &mut Random, count: usize) -> usize {
    let (end, any) = (random.pick(&ENDS), random.below(count));
    random.pick(&[count - 1, end.min(count - 1), end.min(count - 1), any])
}

/// On its own side of the x axis, on the axis with one side of its box, or with a corner, or across it.
fn leaving(random: &mut Random, x: i32, side: i32) -> Triangle {
    let (along, beyond) = match random.below(4) {
        0 => ([0, 9], 0),
        1 => (if side > 0 { [0, 9] } else { [-9, 0] }, 0),
        _ => ([-9, 9], 4),
    };
    let y = if side > 0 { [-beyond, 9] } else { [-9, beyond] };
    filling(random, [x + along[0], y[0]], [x + along[1], y[1]])
}
