//! Recordings by the boxes around them: such that have much in common while those of their triangles have
//! little or nothing, and such that end where the other begins.

use super::recordings::{file_of, moved, placed, seen_from_any_side, sets, Part};
use crate::files::draft::Triangle;
use crate::files::shapes::cross;
use crate::footprint::stored::{HELD_BACK, TEST, TRAINING};
use crate::random::Random;

type Corner = [i32; 2];

/// A triangle that has this box: one of its corners, and a point of each of the two sides that it is not on.
pub fn filling(random: &mut Random, low: Corner, high: Corner) -> Triangle {
    loop {
        let [right, up] = [random.once_in(2), random.once_in(2)];
        let (x, x_of_other) = if right { (high[0], low[0]) } else { (low[0], high[0]) };
        let (y, y_of_third) = if up { (high[1], low[1]) } else { (low[1], high[1]) };
        let (some_x, some_y) = (random.between(low[0], high[0]), random.between(low[1], high[1]));
        let mut vertices = [[x, y], [x_of_other, some_y], [some_x, y_of_third]];
        random.shuffle(&mut vertices);
        let [[a, b], [c, d], [e, f]] = vertices;
        if cross([a, b, c, d, e, f]) != 0 {
            return [a, b, c, d, e, f];
        }
    }
}

fn square(random: &mut Random, [x, y]: Corner, size: i32) -> Triangle {
    filling(random, [x, y], [x + size, y + size])
}

fn file_from(mut parts: Vec<Part>, random: &mut Random) -> Vec<u8> {
    seen_from_any_side(&mut parts, random);
    placed(&mut parts, random);
    random.shuffle(&mut parts);
    let sets = sets(random, parts.len());
    file_of(&parts, &sets, random)
}

/// Tracks along a diagonal, beside one another: their triangles' boxes are apart, or share a corner with the
/// one beside, or a little more.
pub fn diagonals(random: &mut Random) -> Vec<u8> {
    let size = random.between(2, 6);
    let step = size + random.between(0, 5);
    let farther = size + random.between(2, 9);
    let aside = random.pick(&[farther, size + 1, size + 1, size, size - 1]);
    let most = random.pick(&[9, 9, 40]);
    let count = 2 + random.below(most) as i32;
    let tracks = 2 + random.below(3) as i32;
    let mut track = |k: i32| -> Part {
        let start = [aside * k, -aside * k];
        (0..count).map(|i| square(random, start.map(|value| value + step * i), size)).collect()
    };
    let parts = (0..tracks).map(&mut track).collect();
    file_from(parts, random)
}

/// Tracks round a corner, each within the angle of the one before.
pub fn bent(random: &mut Random) -> Vec<u8> {
    let size = random.between(2, 6);
    let step = size + random.between(0, 3);
    let count = 2 + random.below(5) as i32;
    let tracks = 2 + random.below(2) as i32;
    let mut track = |k: i32| -> Part {
        let start = step * k;
        let mut at = |x: i32, y: i32| square(random, [start + step * x, start + step * y], size);
        let along: Part = (0..count).rev().map(|i| at(i, 0)).collect();
        let up: Part = (1..count).map(|i| at(0, i)).collect();
        [along, up].concat()
    };
    let parts = (0..tracks).map(&mut track).collect();
    file_from(parts, random)
}

/// A track that goes round others.
pub fn rings(random: &mut Random) -> Vec<u8> {
    let size = random.between(2, 6);
    let step = size + random.between(0, 3);
    let last = 2 + random.below(3) as i32;
    let mut around: Part = Vec::new();
    for k in 0..last {
        for cell in [[k, 0], [last, k], [last - k, last], [0, last - k]] {
            around.push(square(random, cell.map(|value| step * value), size));
        }
    }
    let mut parts = vec![around];
    for _ in 0..1 + random.below(3) {
        let mut cell =
            || [random.between(1, last - 1), random.between(1, last - 1)].map(|value| step * value);
        let cells: Vec<Corner> = (0..1 + last as usize / 2).map(|_| cell()).collect();
        // At times larger than its cell, so that it reaches the track on one side.
        let larger = if random.once_in(3) { step - size } else { 0 };
        parts.push(cells.iter().map(|cell| square(random, *cell, size + larger)).collect());
    }
    file_from(parts, random)
}

/// Two recordings on the two sides of a line, or across from one another at a corner. Each reaches the line
/// with one triangle or more; at times there is a centimetre between them.
pub fn borders(random: &mut Random) -> Vec<u8> {
    const WIDE: i32 = 9;
    let gaps = [0; 2].map(|_| random.pick(&[0, 0, 1]));
    let corner = random.once_in(2);
    let mut part = |upper: bool| -> Part {
        let count = 1 + random.below(5);
        let reaching = random.below(count);
        let mut triangle = |k: usize| {
            // The upper one begins at the line or at the gap behind it, the lower one ends at the line.
            let mut beside = |gap: i32| {
                let (one, other) = (random.between(0, WIDE - 1), random.between(1, WIDE));
                let (near, far) = if one < other { (one, other) } else { (other - 1, one) };
                let near = if k == reaching { 0 } else { near };
                if upper {
                    [near + gap, far + gap]
                } else {
                    [-far, -near]
                }
            };
            let x = beside(gaps[0]);
            let y = if corner { beside(gaps[1]) } else { across(random, WIDE) };
            filling(random, [x[0], y[0]], [x[1], y[1]])
        };
        (0..count).map(&mut triangle).collect()
    };
    let mut parts = [part(false), part(true)];
    seen_from_any_side(&mut parts, random);
    moved(&mut parts, random);
    let sets = random.pick(&[[TEST, TRAINING], [TRAINING, TEST]]);
    file_of(&parts, &sets, random)
}

/// Any stretch, on both sides of the line or on one.
fn across(random: &mut Random, wide: i32) -> [i32; 2] {
    let from = random.between(-wide, wide - 1);
    [from, random.between(from + 1, wide)]
}

/// A recording in two corners of its box, or in all but one, and triangles beyond each corner that have no
/// more than that corner in common with it. They are recordings of their own, or all but one of them are one.
pub fn corners(random: &mut Random) -> Vec<u8> {
    let (size, width) = (random.between(1, 4), random.between(9, 30));
    let far = width - size;
    let mut inner: Part = [[0, 0], [far, far]].iter().map(|corner| square(random, *corner, size)).collect();
    if random.once_in(3) {
        inner.push(square(random, [far, 0], size));
    }
    random.shuffle(&mut inner);
    let mut outer: Vec<Part> = Vec::new();
    for corner in [[-size, -size], [width, -size], [-size, width], [width, width]] {
        outer.push(vec![square(random, corner, size)]);
    }
    random.shuffle(&mut outer);
    if random.once_in(2) {
        outer = vec![outer[..3].concat(), outer[3].clone()];
    }
    let set = random.pick(&[TEST, TRAINING]);
    let other = if set == TEST { TRAINING } else { TEST };
    let mut recordings: Vec<(u8, Part)> = vec![(set, inner)];
    recordings
        .extend(outer.into_iter().map(|part| (if random.once_in(8) { HELD_BACK } else { other }, part)));
    random.shuffle(&mut recordings);
    let (sets, mut parts): (Vec<u8>, Vec<Part>) = recordings.into_iter().unzip();
    seen_from_any_side(&mut parts, random);
    placed(&mut parts, random);
    file_of(&parts, &sets, random)
}

/// Recordings within the box of another one: among its triangles, in one of them, or where it has none.
pub fn within(random: &mut Random) -> Vec<u8> {
    let wide = 40;
    let mut outer: Part = vec![square(random, [-wide, -wide], 6), square(random, [wide - 6, wide - 6], 6)];
    for _ in 0..random.below(4) {
        let corner = [0; 2].map(|_| random.between(-wide, wide - 12));
        outer.push(square(random, corner, 12));
    }
    if random.once_in(4) {
        outer.push(filling(random, [-wide, -wide], [wide, wide]));
    }
    random.shuffle(&mut outer);
    let mut parts = vec![outer];
    for _ in 0..1 + random.below(3) {
        let count = 1 + random.below(4);
        let mut inner = || {
            let corner = [0; 2].map(|_| random.between(1 - wide, wide - 9));
            square(random, corner, 8)
        };
        parts.push((0..count).map(|_| inner()).collect());
    }
    file_from(parts, random)
}

/// All boxes have a point in common; at times but for those of one test and one training triangle.
pub fn all_near(random: &mut Random) -> Vec<u8> {
    let (recordings, most) = random.pick(&[(2, 1), (5, 4), (2, 60), (4, 50)]);
    let around = |random: &mut Random| {
        let low = [-random.between(1, 9), -random.between(0, 9)];
        let high = [random.between(1, 9), random.between(1, 9)];
        filling(random, low, high)
    };
    // All of them hold (−1,0) and (0,0), so that those two that hold one alone are near all but one another.
    let mut parts: Vec<Part> =
        (0..recordings).map(|_| (0..1 + random.below(most)).map(|_| around(random)).collect()).collect();
    if random.once_in(2) {
        parts[0].push(filling(random, [-9, -3], [-1, 3]));
        parts[1].push(filling(random, [0, -3], [9, 3]));
    }
    seen_from_any_side(&mut parts, random);
    placed(&mut parts, random);
    let mut sets = sets(random, recordings);
    sets[..2].copy_from_slice(&random.pick(&[[TEST, TRAINING], [TRAINING, TEST]]));
    file_of(&parts, &sets, random)
}

/// In cells of a board with a gap between them, each of them in a cell of its own.
pub fn none_near(random: &mut Random) -> Vec<u8> {
    let size = random.between(2, 9);
    let step = size + random.between(1, 3);
    let mut cells: Vec<Corner> = (0..36).map(|k| [step * (k % 6), step * (k / 6)]).collect();
    random.shuffle(&mut cells);
    let recordings = 2 + random.below(5);
    let mut parts: Vec<Part> = Vec::new();
    for _ in 0..recordings {
        let count = 1 + random.below(5);
        parts.push(cells.drain(..count).map(|cell| square(random, cell, size)).collect());
    }
    file_from(parts, random)
}
