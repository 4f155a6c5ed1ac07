//! Recordings without a gap between them: they share whole edges, parts of edges or corners, and only some
//! of them overlap.

use super::recordings::{file_of, placed, sets, Part};
use crate::files::draft::Triangle;
use crate::footprint::stored::{HELD_BACK, TEST, TRAINING};
use crate::random::Random;

/// A floor of planks: rows that are each cut across at places of their own. A recording is a plank, or two
/// that follow one another. At times one has a triangle more, which reaches into the next row.
pub fn floor(random: &mut Random) -> Vec<u8> {
    let rows = random.between(1, 3);
    let length = random.between(2, 6);
    let mut parts: Vec<Part> = Vec::new();
    for row in 0..rows {
        let mut cuts: Vec<i32> = (1..length).filter(|_| random.once_in(2)).collect();
        cuts.push(length);
        let mut from = 0;
        for to in cuts {
            let plank = plank(random, from, to, row);
            match parts.last_mut() {
                Some(part) if from > 0 && random.once_in(3) => part.extend(plank),
                _ => parts.push(plank.to_vec()),
            }
            from = to;
        }
    }
    if random.once_in(2) {
        let k = random.below(parts.len());
        let [x, y] = [parts[k][0][0], parts[k][0][1]];
        let place = random.pick(&[0, parts[k].len()]);
        parts[k].insert(place, [x, y, x + 1, y, x, y + 2]);
    }
    laid(&mut parts, random);
    random.shuffle(&mut parts);
    let sets = sets(random, parts.len());
    file_of(&parts, &sets, random)
}

/// From `from` to `to` along the row, cut in two along a diagonal.
fn plank(random: &mut Random, from: i32, to: i32, row: i32) -> [Triangle; 2] {
    let next = row + 1;
    if random.once_in(2) {
        [[from, row, to, row, from, next], [to, row, to, next, from, next]]
    } else {
        [[from, row, to, row, to, next], [from, row, to, next, from, next]]
    }
}

/// Tests on the one bank of a straight river and trainings on the other, each with an edge on the river,
/// which all have a stretch or at least a point in common. Some are held back, on either bank.
pub fn banks(random: &mut Random) -> Vec<u8> {
    let most = random.pick(&[2, 6, 20]);
    let apart = random.once_in(4);
    let mut recordings: Vec<(u8, Part)> = Vec::new();
    for (set, side) in [(TEST, 1), (TRAINING, -1)] {
        for _ in 0..most / 2 + random.below(most) + 1 {
            let (left, right) = if apart {
                [(-random.between(1, 9), 0), (0, random.between(1, 9))][usize::from(set == TEST)]
            } else {
                (-random.between(0, 9), random.between(1, 9))
            };
            let triangle = [left, 0, right, 0, random.between(-9, 9), side * random.between(1, 9)];
            let set = if random.once_in(12) { HELD_BACK } else { set };
            recordings.push((set, vec![triangle]));
        }
    }
    random.shuffle(&mut recordings);
    let (sets, mut parts): (Vec<u8>, Vec<Part>) = recordings.into_iter().unzip();
    laid(&mut parts, random);
    file_of(&parts, &sets, random)
}

/// Straight or aslant: aslant, the corners that the rules compute are rounded in both coordinates.
fn laid(parts: &mut [Part], random: &mut Random) {
    let m = match random.below(3) {
        0 => [1, 0, 0, 1],
        1 => [1, random.between(-3, 3), 0, 1],
        _ => {
            let mut part = || random.between(1, 40);
            [part(), -part(), part(), part()]
        }
    };
    for triangle in parts.iter_mut().flatten() {
        let [x0, y0, x1, y1, x2, y2] = *triangle;
        let corner = |x: i32, y: i32| [m[0] * x + m[1] * y, m[2] * x + m[3] * y];
        let [a, b, c] = [corner(x0, y0), corner(x1, y1), corner(x2, y2)];
        *triangle = [a[0], a[1], b[0], b[1], c[0], c[1]];
    }
    placed(parts, random);
}
