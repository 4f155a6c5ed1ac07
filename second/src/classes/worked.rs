//! The twelve cases that document 01 works by hand.

use crate::case::{point, Case, Pair};
use crate::random::Random;
use crate::triangles::numbers::Point;

const ORDINARY_V: [(f64, f64); 3] = [(0.0, 0.0), (4.0, 0.0), (0.0, 4.0)];
const U_OF_A: [(f64, f64); 3] = [(1.0, 1.0), (2.0, 1.0), (1.0, 2.0)];
const EIGHT: [(f64, f64); 3] = [(0.0, 0.0), (8.0, 0.0), (0.0, 8.0)];
const FLAT: [(f64, f64); 3] = [(0.0, 0.0), (1.0, 1.0), (2.0, 2.0)];

fn pair(u: [(f64, f64); 3], v: [(f64, f64); 3]) -> Pair {
    let points = |t: [(f64, f64); 3]| -> [Point; 3] { t.map(|(x, y)| point(x, y)) };
    Pair { u: points(u), v: points(v) }
}

/// A to J in turn.
fn before_k() -> [Pair; 10] {
    [
        pair(U_OF_A, ORDINARY_V),
        pair(EIGHT, U_OF_A),
        pair([(6.0, 6.0), (-2.0, 6.0), (6.0, -2.0)], EIGHT),
        pair([(1.0, 1.0), (-3.0, 1.0), (1.0, -3.0)], ORDINARY_V),
        pair([(10.0, 10.0), (11.0, 10.0), (10.0, 11.0)], ORDINARY_V),
        pair([(0.0, 0.0), (4.0, 0.0), (0.0, -4.0)], ORDINARY_V),
        pair([(-3.0, 5.0), (5.0, -3.0), (9.0, 9.0)], ORDINARY_V),
        pair(U_OF_A, [(0.0, 0.0), (0.0, 4.0), (4.0, 0.0)]),
        pair(U_OF_A, FLAT),
        pair(FLAT, ORDINARY_V),
    ]
}

/// A NaN in each of the twelve places, first with the ordinary V, then with a flat one.
fn k() -> Vec<Vec<f64>> {
    let mut all = Vec::new();
    for v in [ORDINARY_V, FLAT] {
        for place in 0..12 {
            let mut values = pair(U_OF_A, v).values();
            values[place] = f64::NAN;
            all.push(values);
        }
    }
    all
}

fn l() -> Pair {
    pair(U_OF_A, [(0.0, 0.0), (1e300, 0.0), (0.0, 1e300)])
}

/// Which of `in_turn` are those of K.
pub const K: std::ops::Range<usize> = 10..34;

/// All of them in document 01's order, K spelled out, with a room of twelve.
pub fn in_turn() -> Vec<Case> {
    let mut inputs: Vec<Vec<f64>> = before_k().iter().map(Pair::values).collect();
    inputs.extend(k());
    inputs.push(l().values());
    inputs.into_iter().map(|values| Case { values, room_length: 12 }).collect()
}

/// One of them, its vertices and axes as written or in any order.
pub fn any(random: &mut Random) -> Case {
    let k_or_not = random.below(12);
    if k_or_not == 10 {
        return Case { values: k()[random.below(24)].clone(), room_length: 12 };
    }
    let one = if k_or_not == 11 { l() } else { before_k()[k_or_not.min(9)] };
    let one = if random.once_in(4) { one } else { one.reordered(random).mirrored(random) };
    one.case(random)
}
