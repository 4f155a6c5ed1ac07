//! Triangles whose cross is zero, exactly or after rounding.

use crate::case::{point, times_power_of_two, Pair};
use crate::classes::ordinary;
use crate::random::Random;
use crate::triangles::numbers::Point;

/// Three lattice points of one line; two or all three of them may be the same.
pub fn flat_triangle(random: &mut Random) -> [Point; 3] {
    let from = ordinary::grid_point(random, 9);
    let step = ordinary::grid_point(random, 4);
    [0; 3].map(|_| {
        let steps = f64::from(random.between(-3, 3));
        point(from.x + steps * step.x, from.y + steps * step.y)
    })
}

pub fn flat_v(random: &mut Random) -> Pair {
    Pair { u: ordinary::any(random).u, v: flat_triangle(random) }.mirrored(random)
}

pub fn flat_u(random: &mut Random) -> Pair {
    Pair { u: flat_triangle(random), v: ordinary::any(random).v }.mirrored(random)
}

/// On one line as far as f64 can say: some of these crosses are zero and some are not.
fn nearly_flat(random: &mut Random) -> [Point; 3] {
    let size = times_power_of_two(1.0, random.pick(&[-540, -530, -20, 0, 20, 500]));
    let from = point(random.real(-1.0, 1.0), random.real(-1.0, 1.0));
    let step = point(random.real(-1.0, 1.0), random.real(-1.0, 1.0));
    [0; 3].map(|_| {
        let part = f64::from(random.between(-4, 4)) / 3.0;
        point(size * (from.x + part * step.x), size * (from.y + part * step.y))
    })
}

pub fn flat_but_for_rounding(random: &mut Random) -> Pair {
    let other = ordinary::real_values(random);
    match random.below(3) {
        0 => Pair { u: nearly_flat(random), v: other.v },
        1 => Pair { u: other.u, v: nearly_flat(random) },
        _ => Pair { u: nearly_flat(random), v: nearly_flat(random) },
    }
}
