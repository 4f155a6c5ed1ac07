//! Triangles for files: good ones of every kind, flat ones, and coordinates out of range.

use super::draft::Triangle;
use crate::footprint::{in_range, FARTHEST};
use crate::random::Random;

pub type Shape = fn(&mut Random) -> Triangle;

const GOOD: [Shape; 6] = [anywhere, small, at_the_ends, thin, vanishing, tiny_far_out];

/// A good triangle of any kind, in either orientation.
pub fn any(random: &mut Random) -> Triangle {
    let shape = random.pick(&GOOD);
    shape(random)
}

pub fn anywhere(random: &mut Random) -> Triangle {
    not_flat(random, |r| r.between(-FARTHEST, FARTHEST))
}

pub fn small(random: &mut Random) -> Triangle {
    not_flat(random, |r| r.between(-8, 8))
}

/// Coordinates on the border of the range, next to it, or zero.
pub fn at_the_ends(random: &mut Random) -> Triangle {
    not_flat(random, |r| r.pick(&[-FARTHEST, FARTHEST, FARTHEST, -FARTHEST, 1 - FARTHEST, FARTHEST - 1, 0]))
}

fn tiny_far_out(random: &mut Random) -> Triangle {
    let corner = [0; 2].map(|_| random.pick(&[-FARTHEST, FARTHEST - 2]));
    let offsets = not_flat(random, |r| r.between(0, 2));
    moved(offsets, corner)
}

pub fn not_flat(random: &mut Random, mut value: impl FnMut(&mut Random) -> i32) -> Triangle {
    loop {
        let triangle = [0; 6].map(|_| value(random));
        if cross(triangle) != 0 {
            return triangle;
        }
    }
}

/// As long as the range allows, and a cross of 1 or −1, or a little more.
pub fn thin(random: &mut Random) -> Triangle {
    loop {
        let leg = [0; 2].map(|_| i64::from(random.between(1_000_000, 2_000_000)));
        let (gcd, mut by) = bezout(leg[0], leg[1]);
        // Another leg with the same cross: how far along is a matter of choice.
        let along = i64::from(random.between(-1, 1));
        by = [by[0] + along * leg[0] / gcd, by[1] + along * leg[1] / gcd];
        let points = [0, 0, leg[0], leg[1], by[0], by[1]];
        let low = |axis: usize| points[axis].min(points[2 + axis]).min(points[4 + axis]);
        let high = |axis: usize| points[axis].max(points[2 + axis]).max(points[4 + axis]);
        let farthest = i64::from(FARTHEST);
        if (0..2).all(|axis| high(axis) - low(axis) <= 2 * farthest) {
            let corner = [-farthest - low(0), -farthest - low(1)].map(|value| value as i32);
            return shuffled(moved(points.map(|value| value as i32), corner), random);
        }
    }
}

/// The greatest common divisor g of a and b, and (u, v) with a·v − b·u = g.
pub fn bezout(a: i64, b: i64) -> (i64, [i64; 2]) {
    if b == 0 {
        return (a, [0, 1]);
    }
    let (gcd, [u, v]) = bezout(b, a % b);
    (gcd, [-v - (a / b) * u, -u])
}

/// A cross that is not zero but a multiple of 2^32: one of 32 bits would be zero.
pub fn vanishing(random: &mut Random) -> Triangle {
    let (i, j) = random.pick(&[(16, 16), (16, 16), (14, 18), (18, 14), (12, 20)]);
    loop {
        let many = |power: i32| ((2 * FARTHEST) >> power).min(30);
        let legs = [many(i), many(j), many(i), many(j)].map(|most| random.between(0, most));
        let triangle = [0, 0, legs[0] << i, legs[1] << j, legs[2] << i, legs[3] << j];
        if cross(triangle) != 0 {
            let room = |axis: usize| 2 * FARTHEST - triangle[2 + axis].max(triangle[4 + axis]);
            let corner = [0, 1].map(|axis| random.between(0, room(axis)) - FARTHEST);
            return shuffled(moved(triangle, corner), random);
        }
    }
}

/// In range, and of no area.
pub fn flat(random: &mut Random) -> Triangle {
    let [x0, y0, x1, y1, x2, y2] = any(random);
    match random.below(8) {
        0 => [x0, y0, x0, y0, x2, y2],
        1 => [x0, y0, x1, y1, x0, y0],
        2 => [x0, y0, x1, y1, x1, y1],
        3 => [x0, y0, x0, y0, x0, y0],
        4 => [x0, y0, x1, y0, x2, y0],
        5 => [x0, y0, x0, y1, x0, y2],
        6 => shuffled([-FARTHEST, -FARTHEST, x0, x0, FARTHEST, FARTHEST], random),
        _ => collinear(random),
    }
}

/// Three points of one slanting line, at times from end to end of the range.
fn collinear(random: &mut Random) -> Triangle {
    let most = random.pick(&[4, 300, FARTHEST]);
    let step = [0; 2].map(|_| random.between(1, most));
    let steps = (FARTHEST / step[0].max(step[1])).min(FARTHEST);
    let mut point = || random.between(-steps, steps);
    let (a, b, c) = (point(), point(), point());
    let sign = random.pick(&[1, -1]);
    [a * step[0], a * step[1], b * step[0], b * step[1], c * step[0], c * step[1]].map(|value| sign * value)
}

pub fn out_of_range(random: &mut Random) -> i32 {
    match random.below(8) {
        0 | 1 => FARTHEST + 1,
        2 | 3 => -FARTHEST - 1,
        4 => i32::MAX,
        5 => i32::MIN,
        6 => random.pick(&[1 << 20, 1 << 24, 1 << 30, -(1 << 20), -(1 << 24), 0x4042_0f00, i32::MIN + 1]),
        _ => loop {
            let value = random.bits() as i32;
            if value.unsigned_abs() > FARTHEST as u32 {
                return value;
            }
        },
    }
}

/// Exact for any i32.
pub fn cross(triangle: Triangle) -> i128 {
    let [x0, y0, x1, y1, x2, y2] = triangle.map(i128::from);
    (x1 - x0) * (y2 - y0) - (y1 - y0) * (x2 - x0)
}

/// The larger part of the cross, without its sign.
pub fn larger_product(triangle: Triangle) -> i128 {
    let [x0, y0, x1, y1, x2, y2] = triangle.map(i128::from);
    ((x1 - x0) * (y2 - y0)).abs().max(((y1 - y0) * (x2 - x0)).abs())
}

/// Vertices 0 and 1, 0 and 2, 1 and 2.
pub fn equal_vertices([x0, y0, x1, y1, x2, y2]: Triangle) -> [bool; 3] {
    [(x0, y0) == (x1, y1), (x0, y0) == (x2, y2), (x1, y1) == (x2, y2)]
}

/// The one coordinate that is out of range, and which it is.
pub fn only_out_of_range(triangle: Triangle) -> Option<(usize, i32)> {
    let out = |(_, value): &(usize, i32)| !in_range(*value);
    let mut all = triangle.into_iter().enumerate().filter(out);
    match (all.next(), all.next()) {
        (Some(one), None) => Some(one),
        _ => None,
    }
}

fn moved(triangle: Triangle, by: [i32; 2]) -> Triangle {
    let [x0, y0, x1, y1, x2, y2] = triangle;
    [x0 + by[0], y0 + by[1], x1 + by[0], y1 + by[1], x2 + by[0], y2 + by[1]]
}

/// The vertices in any order, the axes exchanged or not: either orientation, the same area.
fn shuffled(triangle: Triangle, random: &mut Random) -> Triangle {
    let order = random.pick(&[[0, 1, 2], [0, 2, 1], [1, 0, 2], [1, 2, 0], [2, 0, 1], [2, 1, 0]]);
    let (x, y) = random.pick(&[(0, 1), (1, 0)]);
    let [a, b, c] = order.map(|vertex: usize| [triangle[2 * vertex + x], triangle[2 * vertex + y]]);
    [a[0], a[1], b[0], b[1], c[0], c[1]]
}
