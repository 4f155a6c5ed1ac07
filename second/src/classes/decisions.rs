//! Pairs that are decided otherwise than they look, by rounding or by a tie, and pairs at the border between
//! boxes that share a point and boxes that share none.

use crate::case::{moved_by_ulps, times_power_of_two, Case};

/// V's corner (0,1) lies on U's edge, and the ring is empty.
const PASSING: [f64; 6] = [0.0, -1.0, -1.0, 0.0, 0.0, 3.0];
const PASSED: [f64; 6] = [4.0, 1.0, 2.0, -1.0, 0.0, 1.0];
/// An edge of the shorter one is a part of an edge of the longer one.
const LONGER: [f64; 6] = [458.0, -958.0, -13747.0, -4524.0, -1189.0, -975.0];
const SHORTER: [f64; 6] = [-6479.0, -2470.0, -805.0, -156.0, -12827.0, -4264.0];

/// Beyond the tip of a needle, by two centimetres and by one. With the needle as V the triangle rules find a
/// ring, of the first with an area.
pub const BEYOND: [[f64; 6]; 2] = [
    [327628.0, 2.0, -335623.0, 719289.0, -969092.0, 2.0],
    [4.0, 591250.0, 1.0, -164391.0, 500204.0, -582337.0],
];
pub const NEEDLES: [[f64; 6]; 2] = [
    [-778994.0, -314945.0, -940499.0, -380241.0, 0.0, 0.0],
    [0.0, 0.0, -933757.0, -541494.0, -973496.0, -564539.0],
];

/// Of a box: left, bottom, right and top.
pub type Sides = [f64; 4];

/// A triangle with this box around it.
pub fn in_the_corner([left, bottom, right, top]: Sides) -> [f64; 6] {
    [left, bottom, right, bottom, left, top]
}

/// A flat one, which the triangle rules refuse if they are asked.
pub fn flat([left, bottom, right, top]: Sides) -> [f64; 6] {
    [right, top, left, bottom, right, top]
}

/// All of them, with a room of twelve: twice the smallest triangle whose area's sum is not zero, though
/// half of it is; and the others either way round.
pub fn in_turn() -> Vec<Case> {
    let tiny = times_power_of_two(1.0, -537);
    let smallest = [0.0, 0.0, tiny, 0.0, 0.0, tiny];
    let pairs = [[smallest; 2], [PASSING, PASSED], [PASSED, PASSING], [LONGER, SHORTER], [SHORTER, LONGER]];
    pairs.iter().map(|pair| case(pair.concat())).collect()
}

fn case(values: Vec<f64>) -> Case {
    Case { values, room_length: 12 }
}

/// Near and far, with triangles that the triangle rules refuse, so that it shows whether they were asked;
/// then those that they do not refuse.
pub fn boxes_in_turn() -> Vec<Case> {
    let all = [borders(), zeros(), overflowing(), not_answered(), answered()];
    all.into_iter().flatten().map(case).collect()
}

const MIDDLE: Sides = [0.0, 0.0, 4.0, 4.0];

/// A common edge or corner, and an ulp or a centimetre beyond it, on every side.
fn borders() -> Vec<Vec<f64>> {
    let ulp = moved_by_ulps(4.0, 1);
    let mut all = Vec::new();
    for (right, left) in [(4.0, 0.0), (ulp, -f64::from_bits(1)), (5.0, -1.0)] {
        let sides: [Sides; 4] =
            [[right, 1.0, 9.0, 3.0], [-9.0, 1.0, left, 3.0], [1.0, right, 3.0, 9.0], [1.0, -9.0, 3.0, left]];
        all.extend(sides.iter().map(|other| [flat(*other), in_the_corner(MIDDLE)].concat()));
    }
    let corners: [Sides; 6] = [
        [4.0, 4.0, 9.0, 9.0],
        [-9.0, 4.0, 0.0, 9.0],
        [-9.0, -9.0, 0.0, 0.0],
        [4.0, -9.0, 9.0, 0.0],
        [4.0, ulp, 9.0, 9.0],
        [5.0, 4.0, 9.0, 9.0],
    ];
    all.extend(corners.iter().map(|other| [in_the_corner(*other), flat(MIDDLE)].concat()));
    // Equal, and either within the other.
    all.push([flat(MIDDLE), in_the_corner(MIDDLE)].concat());
    all.push([flat(MIDDLE), in_the_corner([-1.0, -1.0, 9.0, 9.0])].concat());
    all.push([in_the_corner([-1.0, -1.0, 9.0, 9.0]), flat(MIDDLE)].concat());
    all
}

fn zeros() -> Vec<Vec<f64>> {
    let below = |side: f64| [-4.0, -4.0, side, side];
    vec![
        [flat(below(-0.0)), in_the_corner(MIDDLE)].concat(),
        [flat(below(0.0)), in_the_corner([-0.0, -0.0, 4.0, 4.0])].concat(),
        [in_the_corner([-0.0, -0.0, 4.0, 4.0]), flat(below(-f64::from_bits(1)))].concat(),
    ]
}

fn overflowing() -> Vec<Vec<f64>> {
    let large = in_the_corner([0.0, 0.0, 1e300, 1e300]);
    let [near, far] = [-1.0, -2.0].map(|x| in_the_corner([x, 0.0, x + 1.0, 1.0]));
    let end = |sign: f64| in_the_corner([sign * 1e308, 0.0, sign * 1.1e308, 4.0]);
    vec![
        [near, large].concat(),
        [far, large].concat(),
        [large, near].concat(),
        [large, far].concat(),
        [end(1.0), end(-1.0)].concat(),
    ]
}

/// Refused before boxes are looked at, by 2 and by 1, wherever the boxes would be.
fn not_answered() -> Vec<Vec<f64>> {
    let near = [in_the_corner(MIDDLE), in_the_corner([4.0, 4.0, 8.0, 8.0])].concat();
    let far = [in_the_corner(MIDDLE), in_the_corner([5.0, 5.0, 8.0, 8.0])].concat();
    let with = |values: &[f64], place: usize, value: f64| {
        let mut values = values.to_vec();
        values[place] = value;
        values
    };
    vec![
        with(&near, 3, f64::NAN),
        with(&far, 0, f64::NAN),
        with(&far, 11, f64::NAN),
        with(&near, 2, f64::INFINITY),
        with(&far, 8, f64::INFINITY),
        with(&far, 5, f64::NEG_INFINITY),
        far[..11].to_vec(),
        [&far[..], &[0.0]].concat(),
    ]
}

fn answered() -> Vec<Vec<f64>> {
    let corner = in_the_corner(MIDDLE);
    vec![
        // They share a corner, and so do their boxes; the boxes alone share an edge, and a corner.
        [in_the_corner([4.0, 0.0, 8.0, -4.0]), corner].concat(),
        [in_the_corner([4.0, 1.0, 8.0, 3.0]), corner].concat(),
        [in_the_corner([4.0, 4.0, 8.0, 8.0]), corner].concat(),
        [in_the_corner([5.0, 1.0, 8.0, 3.0]), corner].concat(),
        [BEYOND[0], NEEDLES[0]].concat(),
        [NEEDLES[0], BEYOND[0]].concat(),
        [BEYOND[1], NEEDLES[1]].concat(),
        [NEEDLES[1], BEYOND[1]].concat(),
    ]
}
