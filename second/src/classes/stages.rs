//! Pairs built to overflow late: at a parameter, a pair test, a position or the area.

use crate::case::{point, times_power_of_two, Pair};
use crate::classes::magnitudes::stretched;
use crate::classes::ordinary;
use crate::random::Random;
use crate::triangles::numbers::Point;

/// Just below the least power of two that f64 has not.
const NEARLY_INFINITE: f64 = f64::MAX * 0.999;

/// U far from V, each of a size whose own cross is finite.
pub fn parameter(random: &mut Random) -> Pair {
    match random.below(4) {
        0 => return too_far_for_a_difference(random),
        1 => return far_behind_v0(random),
        _ => {}
    }
    let pair = ordinary::any(random);
    let size = random.between(470, 511);
    let far = 1024 - size + random.between(-4, 2);
    let u_size = far - random.between((far - 510).max(0), 48);
    let centre = [0; 2].map(|_| times_power_of_two(random.sign() * random.real(0.2, 1.0), far));
    let u = pair.scaled_to(u_size).u.map(|p| point(p.x + centre[0], p.y + centre[1]));
    stretched(Pair { u, v: pair.scaled_to(size).v }, random)
}

/// So far apart that U − V0 overflows, and so flat that d and e do not.
fn too_far_for_a_difference(random: &mut Random) -> Pair {
    let pair = ordinary::any(random).scaled_to(975).scaled(0, -1600);
    let away = random.real(0.3, 0.99) * NEARLY_INFINITE;
    let shift = |p: Point, by: f64| point(p.x + by, p.y);
    Pair { u: pair.u.map(|p| shift(p, away)), v: pair.v.map(|p| shift(p, -away)) }.mirrored(random)
}

/// Minus on lines 0 and 1 with both parameters finite: there w counts unseen, but it is computed
/// and can overflow all the same.
fn far_behind_v0(random: &mut Random) -> Pair {
    let d = random.between(1000, 1021);
    let first = random.between(100, d - 100);
    let (width, height) = (times_power_of_two(1.0, first), times_power_of_two(1.0, d - first));
    let v = [point(0.0, 0.0), point(width, 0.0), point(0.0, height)];
    let (x, y) = (random.real(0.3, 0.9), random.real(0.3, 0.9));
    let size = times_power_of_two(1.0, -random.between(13, 40));
    let mut near = |part: f64| -(part + size * random.real(-1.0, 1.0)) * NEARLY_INFINITE;
    let u = [0; 3].map(|_| point(near(x) / height, near(y) / width));
    Pair { u, v }.mirrored(random)
}

/// The point at `x` and `y` parts of V's legs; these are its parameters divided by d.
fn at(v: &[Point; 3], x: f64, y: f64) -> Point {
    point(
        v[0].x + x * (v[1].x - v[0].x) + y * (v[2].x - v[0].x),
        v[0].y + x * (v[1].y - v[0].y) + y * (v[2].y - v[0].y),
    )
}

/// Along one of V's lines and far beyond it both ways: small parameters on that line, large ones
/// on the other two. A test with the first is finite, the test of the other two is not.
pub fn unlike_pair_tests(random: &mut Random) -> Pair {
    let large = random.between(40, 200);
    let d = 512 - large + random.between(-2, 30);
    let first = random.between(0, d);
    let leg = |power: i32| times_power_of_two(1.0, power);
    let v = [point(0.0, 0.0), point(leg(first), 0.0), point(0.0, leg(d - first))];
    let part =
        |random: &mut Random, power: i32| times_power_of_two(random.sign() * random.real(0.5, 1.0), power);
    let small = -random.between(0, 40);
    let vertex = |random: &mut Random, sign: f64| {
        let beside = part(random, small);
        at(&v, beside, sign * part(random, large).abs())
    };
    let (one, two) = (vertex(random, 1.0), vertex(random, -1.0));
    let third = match random.below(3) {
        0 => vertex(random, 1.0),
        1 => at(&v, part(random, large), part(random, large)),
        _ => at(&v, part(random, 1), part(random, 1)),
    };
    Pair { u: [one, two, third], v }.reordered(random).mirrored(random)
}

/// d near the largest value and U of V's size: a_P − a_Q can overflow though both are finite.
pub fn denominator(random: &mut Random) -> Pair {
    let shift = random.between(-400, 400);
    let (width, height) = (random.real(0.75, 1.0), random.real(0.75, 1.0));
    let v = [
        point(0.0, 0.0),
        point(times_power_of_two(width, 512 + shift), 0.0),
        point(0.0, times_power_of_two(height, 512 - shift)),
    ];
    let [inside, outside] = match random.below(4) {
        0 => across_line_1(random),
        1 => across_line_2(random, width * height),
        2 => {
            [(random.real(0.0, 0.5), random.real(0.0, 0.5)), (random.real(-1.2, 1.5), random.real(-1.2, 1.5))]
        }
        _ => return denominator_beside_the_ring(random),
    };
    let along = if random.once_in(2) { 0.0 } else { random.real(-0.3, 1.3) };
    let between = |p: f64, q: f64, random: &mut Random| p + along * (q - p) + random.real(-0.2, 0.2);
    let third = (between(inside.0, outside.0, random), between(inside.1, outside.1, random));
    let u = [inside, outside, third].map(|(x, y)| at(&v, x, y));
    let pair = Pair { u, v };
    let reordered = pair.reordered(random);
    // V's right angle stays at V0 as a rule: on line 0 the denominator never overflows in the ring.
    if random.once_in(3) { reordered } else { Pair { u: reordered.u, v } }.mirrored(random)
}

/// Near V2, and beyond line 1 while plus on the others; in parts of d.
fn across_line_1(random: &mut Random) -> [(f64, f64); 2] {
    let below = random.real(0.15, 0.9);
    let inside = (0.05 * random.unit(), 0.95 - 0.05 * random.unit());
    [inside, (below + random.real(-0.1, 0.9), -below)]
}

/// Near V0, and beyond line 2 with both parameters just finite; in parts of d, which is `d` parts
/// of the largest value.
fn across_line_2(random: &mut Random, d: f64) -> [(f64, f64); 2] {
    let mut far = || random.real(0.6, 0.999) / d;
    let outside = (far(), far());
    [(0.05 * random.unit(), 0.05 * random.unit()), outside]
}

/// Two vertices far out on both sides of one line and minus on another: their edge crosses the
/// first line outside V, and only t's denominator there overflows.
fn denominator_beside_the_ring(random: &mut Random) -> Pair {
    let (flat, d) = (random.between(4, 400), random.between(-20, 0));
    let (width, height) = (times_power_of_two(1.0, -flat), times_power_of_two(1.0, flat + d));
    let v = [point(0.0, 0.0), point(width, 0.0), point(0.0, height)];
    let vertex = |x: f64, y: f64| point(x / height, y / width);
    let mut small = || times_power_of_two(random.real(0.1, 0.4), -random.between(0, 30));
    let (y0, y1, y2) = (small(), small(), small());
    let mut large = || random.real(0.5, 1.0) * NEARLY_INFINITE;
    let (x0, x1) = (large(), large());
    let third = match random.below(3) {
        0 => vertex(times_power_of_two(random.real(-0.5, 1.0), d), y2),
        1 => vertex(-random.real(0.0, 0.5) * NEARLY_INFINITE, y2),
        _ => vertex(times_power_of_two(random.sign(), d - 3), -y2),
    };
    Pair { u: [vertex(x0, -y0), vertex(-x1, -y1), third], v }.reordered(random).mirrored(random)
}
