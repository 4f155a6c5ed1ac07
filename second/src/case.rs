//! A pair of triangles while it is being made, and the call that comes of it.

use crate::random::Random;
use crate::triangles::numbers::Point;

/// One call: the values lent as input and the length of the room.
#[derive(Clone, Debug)]
pub struct Case {
    pub values: Vec<f64>,
    pub room_length: usize,
}

/// With one NaN for all NaNs: a test program need not carry payloads.
pub fn plain(mut case: Case) -> Case {
    for value in case.values.iter_mut().filter(|value| value.is_nan()) {
        *value = f64::from_bits(0x7ff8_0000_0000_0000);
    }
    case
}

#[derive(Clone, Copy, Debug)]
pub struct Pair {
    pub u: [Point; 3],
    pub v: [Point; 3],
}

const VERTEX_ORDERS: [[usize; 3]; 6] = [[0, 1, 2], [0, 2, 1], [1, 0, 2], [1, 2, 0], [2, 0, 1], [2, 1, 0]];

pub fn point(x: f64, y: f64) -> Point {
    Point { x, y }
}

impl Pair {
    pub fn values(&self) -> Vec<f64> {
        self.u.iter().chain(&self.v).flat_map(|p| [p.x, p.y]).collect()
    }

    /// A call of the right lengths; the room is at times longer than it must be.
    pub fn case(&self, random: &mut Random) -> Case {
        let room_length = if random.once_in(3) { 13 + random.below(8) } else { 12 };
        Case { values: self.values(), room_length }
    }

    pub fn map(self, mut f: impl FnMut(Point) -> Point) -> Pair {
        Pair { u: self.u.map(&mut f), v: self.v.map(&mut f) }
    }

    /// The vertices of both triangles in any order.
    pub fn reordered(self, random: &mut Random) -> Pair {
        let of_u = random.pick(&VERTEX_ORDERS);
        let of_v = random.pick(&VERTEX_ORDERS);
        Pair { u: of_u.map(|k| self.u[k]), v: of_v.map(|k| self.v[k]) }
    }

    /// Looked at from another side: axes exchanged, axes turned over.
    pub fn mirrored(self, random: &mut Random) -> Pair {
        let (exchange, turn_x, turn_y) = (random.once_in(2), random.once_in(3), random.once_in(3));
        self.map(|p| {
            let x = if turn_x { -p.x } else { p.x };
            let y = if turn_y { -p.y } else { p.y };
            if exchange {
                point(y, x)
            } else {
                point(x, y)
            }
        })
    }

    /// Vertex orders, orientations and the parts of U and V all left to chance.
    pub fn shuffled(self, random: &mut Random) -> Pair {
        let pair = if random.once_in(4) { Pair { u: self.v, v: self.u } } else { self };
        pair.reordered(random).mirrored(random)
    }

    /// x times 2^`x_power` and y times 2^`y_power`.
    pub fn scaled(self, x_power: i32, y_power: i32) -> Pair {
        self.map(|p| point(times_power_of_two(p.x, x_power), times_power_of_two(p.y, y_power)))
    }

    /// Scaled so that the largest coordinate gets this binary exponent.
    pub fn scaled_to(self, exponent: i32) -> Pair {
        let power = exponent - self.values().iter().map(|value| exponent_of(*value)).max().unwrap_or(0);
        self.scaled(power, power)
    }
}

/// The binary exponent; of zero and of subnormals that of the smallest normal.
pub fn exponent_of(value: f64) -> i32 {
    let biased = (value.to_bits() >> 52) & 0x7ff;
    (biased as i32 - 1023).max(-1022)
}

/// In steps that are each a power within range, so that only the last can overflow or round.
pub fn times_power_of_two(value: f64, power: i32) -> f64 {
    let mut scaled = value;
    let mut left = power;
    while left != 0 {
        let step = left.clamp(-1000, 1000);
        scaled *= f64::from_bits(((step + 1023) as u64) << 52);
        left -= step;
    }
    scaled
}

/// Some ulps up or down; through zero into the other sign.
pub fn moved_by_ulps(value: f64, ulps: i32) -> f64 {
    let mut moved = value;
    for _ in 0..ulps.abs() {
        moved = if ulps > 0 { next_up(moved) } else { -next_up(-moved) };
    }
    moved
}

/// The least value above; a NaN and the positive infinity stay. It stands here because the
/// standard library of the oldest compiler in use has none.
fn next_up(value: f64) -> f64 {
    if value.is_nan() || value == f64::INFINITY {
        value
    } else if value == 0.0 {
        f64::from_bits(1)
    } else if value > 0.0 {
        f64::from_bits(value.to_bits() + 1)
    } else {
        f64::from_bits(value.to_bits() - 1)
    }
}
