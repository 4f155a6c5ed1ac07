//! Pairs that all but touch, so that rounding decides.

use crate::case::{moved_by_ulps, point, times_power_of_two, Pair};
use crate::classes::touching;
use crate::random::Random;
use crate::triangles::numbers::Point;

/// A touching pair, shifted off zero at times, then a few coordinates some ulps up or down.
pub fn nudged(random: &mut Random) -> Pair {
    let shift = random.pick(&[0.0, 1000.0, 1.0e6, 1.0e9]);
    let pair = touching::any(random).shuffled(random).map(|p| point(p.x + shift, p.y - shift));
    let widest = random.pick(&[1, 1, 2, 4]);
    let rare = random.pick(&[1, 2, 6]);
    let mut nudge = |value: f64| {
        if random.once_in(rare) {
            moved_by_ulps(value, random.between(-widest, widest))
        } else {
            value
        }
    };
    pair.map(|p| point(nudge(p.x), nudge(p.y)))
}

/// A touching pair turned, stretched and shifted by real numbers: incidences hold up to rounding.
pub fn mapped(random: &mut Random) -> Pair {
    let m = [0; 4].map(|_| random.real(-2.0, 2.0));
    let size = times_power_of_two(1.0, random.between(-20, 20));
    let shift = point(random.real(-100.0, 100.0), random.real(-100.0, 100.0));
    touching::any(random).shuffled(random).map(|p| {
        let x = m[0] * p.x + m[1] * p.y + shift.x;
        let y = m[2] * p.x + m[3] * p.y + shift.y;
        point(x * size, y * size)
    })
}

/// A long thin triangle along the segment; its third corner is hardly off it, or off it by a part.
fn sliver(random: &mut Random, from: Point, to: Point) -> [Point; 3] {
    let part = random.real(-0.2, 1.2);
    let off = random.sign() * times_power_of_two(random.real(0.5, 1.0), random.between(-50, -2));
    let x = from.x + part * (to.x - from.x) - off * (to.y - from.y);
    let y = from.y + part * (to.y - from.y) + off * (to.x - from.x);
    [from, to, point(x, y)]
}

pub fn slivers(random: &mut Random) -> Pair {
    let mut anywhere = || point(random.real(-100.0, 100.0), random.real(-100.0, 100.0));
    let (a, b, c, d) = (anywhere(), anywhere(), anywhere(), anywhere());
    let v = sliver(random, a, b);
    let u = match random.below(4) {
        0 => sliver(random, c, d),
        1 => sliver(random, a, c),
        2 => sliver(random, v[2], b),
        _ => [a, c, d],
    };
    Pair { u, v }.shuffled(random)
}
