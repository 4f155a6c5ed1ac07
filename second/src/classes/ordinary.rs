//! Pairs without any special relation.

use crate::case::{point, times_power_of_two, Pair};
use crate::classes::touching;
use crate::random::Random;
use crate::triangles::numbers::Point;

/// Whole centimetres within ±500,000, U shifted by up to 375,000 a direction: about half overlap.
pub fn whole_centimetres(random: &mut Random) -> Pair {
    let mut vertex =
        || point(f64::from(random.between(-500_000, 500_000)), f64::from(random.between(-500_000, 500_000)));
    let (u, v) = ([0; 3].map(|_| vertex()), [0; 3].map(|_| vertex()));
    let shift =
        point(f64::from(random.between(-375_000, 375_000)), f64::from(random.between(-375_000, 375_000)));
    Pair { u: u.map(|p| point(p.x + shift.x, p.y + shift.y)), v }
}

pub fn real_values(random: &mut Random) -> Pair {
    let size = times_power_of_two(1.0, random.between(-30, 30));
    let far = if random.once_in(3) { size * random.real(0.0, 50.0) } else { 0.0 };
    let shift = point(size * random.real(-0.75, 0.75), size * random.real(-0.75, 0.75));
    let mut vertex = |by: Point| {
        point(far + size * random.real(-1.0, 1.0) + by.x, far + size * random.real(-1.0, 1.0) + by.y)
    };
    Pair { u: [0; 3].map(|_| vertex(shift)), v: [0; 3].map(|_| vertex(point(0.0, 0.0))) }
}

/// A handful of lattice points: shared corners and flat triangles come by themselves.
pub fn small_grid(random: &mut Random) -> Pair {
    let side = random.between(2, 7);
    let mut vertex = || grid_point(random, side);
    Pair { u: [0; 3].map(|_| vertex()), v: [0; 3].map(|_| vertex()) }
}

pub fn grid_point(random: &mut Random, side: i32) -> Point {
    point(f64::from(random.between(0, side)), f64::from(random.between(0, side)))
}

/// What the other classes scale, spoil or lengthen.
pub fn any(random: &mut Random) -> Pair {
    match random.below(4) {
        0 => whole_centimetres(random),
        1 => real_values(random),
        2 => small_grid(random).shuffled(random),
        _ => touching::any(random).shuffled(random),
    }
}
