//! Pairs in which a corner, an edge or a line is shared exactly.

use crate::case::{point, Pair};
use crate::classes::ordinary::grid_point;
use crate::random::Random;
use crate::triangles::numbers::Point;

/// Eighths of V's edges are whole numbers, so points on its lines are exact.
const PART: f64 = 8.0;

/// A triangle that is not flat, its coordinates multiples of eight.
fn triangle(random: &mut Random) -> [Point; 3] {
    let shift = point(f64::from(random.between(-6, 3)), f64::from(random.between(-6, 3)));
    loop {
        let t = [0; 3]
            .map(|_| grid_point(random, 6))
            .map(|p| point((p.x + shift.x) * PART, (p.y + shift.y) * PART));
        let twice_area = (t[1].x - t[0].x) * (t[2].y - t[0].y) - (t[1].y - t[0].y) * (t[2].x - t[0].x);
        if twice_area != 0.0 {
            return t;
        }
    }
}

fn anywhere(random: &mut Random) -> Point {
    point(f64::from(random.between(-60, 60)), f64::from(random.between(-60, 60)))
}

/// A point of the line through two corners, at `eighths` of the way.
fn on_line(from: Point, to: Point, eighths: i32) -> Point {
    let part = f64::from(eighths) / PART;
    point(from.x + part * (to.x - from.x), from.y + part * (to.y - from.y))
}

/// On one of V's lines, between its corners, at one or beyond them.
fn on_a_line(random: &mut Random, v: &[Point; 3]) -> Point {
    let k = random.below(3);
    on_line(v[k], v[(k + 1) % 3], random.between(-8, 16))
}

pub fn shared_corner(random: &mut Random) -> Pair {
    let v = triangle(random);
    Pair { u: [v[0], anywhere(random), anywhere(random)], v }
}

pub fn shared_edge(random: &mut Random) -> Pair {
    let v = triangle(random);
    Pair { u: [v[0], v[1], anywhere(random)], v }
}

pub fn vertices_on_lines(random: &mut Random) -> Pair {
    let v = triangle(random);
    let on_lines = random.between(1, 3);
    let u = [1, 2, 3].map(|k| if k <= on_lines { on_a_line(random, &v) } else { anywhere(random) });
    Pair { u, v }
}

/// One edge of U runs along one of V's lines, either way.
pub fn collinear_edges(random: &mut Random) -> Pair {
    let v = triangle(random);
    let mut along = || on_line(v[0], v[1], random.between(-8, 16));
    let (one, two) = (along(), along());
    let third = if random.once_in(3) { on_a_line(random, &v) } else { anywhere(random) };
    Pair { u: [one, two, third], v }
}

/// Whole centimetres on a slanting line: an edge of U and one of V have a stretch of it in common, and lie
/// on either side. The shorter edge lies near zero, so that the positions of crossings at its ends keep
/// what rounding does to them.
pub fn part_of_an_edge(random: &mut Random) -> Pair {
    let step = point(random.sign() * f64::from(random.between(1, 60)), f64::from(random.between(1, 60)));
    let far = random.pick(&[10, 300, 15_000]);
    let near = random.pick(&[3, 30, far]);
    let along = |steps: i32| point(f64::from(steps) * step.x, f64::from(steps) * step.y);
    let mut beside = |side: f64| loop {
        let most = 60 * far;
        let p = point(f64::from(random.between(-most, most)), f64::from(random.between(-most, most)));
        if side * (step.x * p.y - step.y * p.x) > 0.0 {
            return p;
        }
    };
    let (left, right) = (beside(1.0), beside(-1.0));
    let mut edge = |most: i32| [along(-random.between(0, most)), along(random.between(1, most))];
    let (longer, shorter) = (edge(far), edge(near));
    Pair { u: [longer[0], longer[1], left], v: [shorter[0], shorter[1], right] }
}

/// The same corners, or V drawn larger or smaller from one of them.
pub fn identical(random: &mut Random) -> Pair {
    let v = triangle(random);
    let eighths = if random.once_in(2) { 8 } else { random.between(-8, 16) };
    Pair { u: v.map(|corner| on_line(v[0], corner, eighths)), v }
}

pub fn any(random: &mut Random) -> Pair {
    match random.below(5) {
        0 => shared_corner(random),
        1 => shared_edge(random),
        2 => vertices_on_lines(random),
        3 => collinear_edges(random),
        _ => identical(random),
    }
}
