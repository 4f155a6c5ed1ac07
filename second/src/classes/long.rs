//! Triangles so long that a difference of two of their vertices overflows, or a product of two.

use crate::case::{point, times_power_of_two, Pair};
use crate::classes::magnitudes::stretched;
use crate::classes::ordinary;
use crate::random::Random;
use crate::triangles::numbers::Point;

/// Vertices 1 and 2 at the two ends, vertex 0 between them so that its own differences stay
/// finite; heights are small multiples of 2^`height`.
fn long_triangle(random: &mut Random, height: i32) -> [Point; 3] {
    let middle = if random.once_in(2) { 0.0 } else { random.real(-0.3, 0.3) };
    let (left, right) = (-random.real(0.3, 0.7), random.real(0.3, 0.7));
    let mut vertex =
        |part: f64| point(part * f64::MAX, times_power_of_two(f64::from(random.between(-16, 16)), height));
    let [zero, one, two] = [middle, left, right].map(&mut vertex);
    if random.once_in(2) {
        [zero, one, two]
    } else {
        [zero, two, one]
    }
}

/// So flat that no pair test overflows, whatever the length.
fn flat_enough(random: &mut Random) -> i32 {
    -random.between(516, 560)
}

/// U long, V tiny and where U's long edge passes or misses it: Q − P overflows.
pub fn position(random: &mut Random) -> Pair {
    let height = flat_enough(random);
    let u = long_triangle(random, height);
    let v = ordinary::small_grid(random).v.map(|p| point(p.x * 4.0 - 10.0, p.y * 4.0 - 10.0));
    let width = if random.once_in(2) { height } else { random.between(-560, 100) };
    let v = v.map(|p| point(times_power_of_two(p.x, width), times_power_of_two(p.y, height)));
    Pair { u, v }.mirrored(random)
}

/// Both long, so that two corners of the ring can be too far apart for their difference.
pub fn area(random: &mut Random) -> Pair {
    let pair = match random.below(4) {
        0 => {
            let height = if random.once_in(4) { -random.between(3, 500) } else { flat_enough(random) };
            Pair { u: long_triangle(random, height), v: long_triangle(random, height) }
        }
        1 => end_to_end(random),
        _ => aslant(random),
    };
    let pair = if random.once_in(10) { pair.reordered(random) } else { pair };
    pair.mirrored(random)
}

/// U's two ends lie in V, its vertex 0 below V's long edge, so that the ring begins at a crossing
/// near one end and reaches to the other.
fn end_to_end(random: &mut Random) -> Pair {
    let height = -random.between(6, 1000);
    let (x_sign, y_sign) = (random.sign(), random.sign());
    let vertex = |x: f64, y: f64| point(x_sign * x * f64::MAX, times_power_of_two(y_sign * y, height));
    let mut middle = || random.real(-0.02, 0.02);
    let (v_middle, u_middle) = (middle(), middle());
    let (top, left, right) = (random.real(20.0, 60.0), -random.real(0.7, 0.97), random.real(0.7, 0.97));
    let v = [vertex(v_middle, top), vertex(left, 0.0), vertex(right, 0.0)];
    let near_end = vertex(random.real(0.3, 0.7), random.real(0.2, 3.0));
    let far_end = vertex(-random.real(0.3, 0.7), random.real(1.0, 10.0));
    let u = [vertex(u_middle, -random.real(0.5, 10.0)), near_end, far_end];
    let v = if random.once_in(2) { v } else { [v[0], v[2], v[1]] };
    Pair { u, v }
}

/// Two thin triangles along one slanting line, vertex 0 of both between the others. Crosses taken
/// from there are finite; from the ring's first corner, further out, a product is not.
fn aslant(random: &mut Random) -> Pair {
    let u = [(-0.439, -0.440), (0.826, 0.622), (-0.981, -0.880)];
    let v = [(-0.104, -0.310), (0.926, 0.740), (-0.986, -0.883)];
    let mut vertex = |(x, y): (f64, f64)| {
        let moved = [x, y].map(|value| times_power_of_two(value + random.real(-0.005, 0.005), 512));
        point(moved[0], moved[1])
    };
    stretched(Pair { u: u.map(&mut vertex), v: v.map(&mut vertex) }, random)
}
