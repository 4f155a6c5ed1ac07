//! Pairs by how the upright boxes around the two lie: an edge or a corner in common, equal, the one within
//! the other, or apart by hardly anything.

use crate::case::{moved_by_ulps, point, Case, Pair};
use crate::classes::{ordinary, refused, touching};
use crate::random::Random;
use crate::triangles::numbers::Point;

/// How U's box lies along one axis, seen from V's. On the other side it lies once the pair is mirrored.
#[derive(Clone, Copy)]
enum Along {
    /// It ends where V's begins, or before.
    Before(Gap),
    /// They have a stretch in common.
    Across,
    Equal,
    Within,
}

#[derive(Clone, Copy)]
enum Gap {
    None,
    Ulp,
    Centimetre,
    Wide,
}

const SHARED: [Along; 3] = [Along::Across, Along::Equal, Along::Within];

/// Beside an axis along which boxes are apart it does not matter how they lie.
fn whichever(random: &mut Random) -> Along {
    let shared = random.pick(&SHARED);
    let gap = random.pick(&[Gap::None, Gap::Ulp, Gap::Wide]);
    random.pick(&[shared, shared, Along::Before(gap)])
}

pub fn common_edge(random: &mut Random) -> Pair {
    let along = random.pick(&SHARED);
    laid(random, Along::Before(Gap::None), along)
}

pub fn common_corner(random: &mut Random) -> Pair {
    laid(random, Along::Before(Gap::None), Along::Before(Gap::None))
}

pub fn equal_or_within(random: &mut Random) -> Pair {
    let [x, y] = [0; 2].map(|_| random.pick(&[Along::Equal, Along::Within]));
    laid(random, x, y)
}

pub fn an_ulp_apart(random: &mut Random) -> Pair {
    let along = whichever(random);
    laid(random, Along::Before(Gap::Ulp), along)
}

pub fn a_centimetre_apart(random: &mut Random) -> Pair {
    let along = whichever(random);
    laid(random, Along::Before(Gap::Centimetre), along)
}

fn any(random: &mut Random) -> Pair {
    match random.below(6) {
        0 => common_edge(random),
        1 => common_corner(random),
        2 => equal_or_within(random),
        3 => an_ulp_apart(random),
        4 => a_centimetre_apart(random),
        _ => {
            let along = whichever(random);
            laid(random, Along::Before(Gap::Wide), along)
        }
    }
}

/// One of them flat, or both, with the same boxes.
pub fn flat(random: &mut Random) -> Pair {
    let pair = any(random);
    let which = random.below(5);
    let mut in_its_box = |triangle: [Point; 3], flat: bool| {
        if !flat {
            return triangle;
        }
        let [x, y] = [triangle.map(|p| p.x), triangle.map(|p| p.y)].map(ends_of);
        let (from, to) = if random.once_in(2) { (y.0, y.1) } else { (y.1, y.0) };
        [point(x.0, from), point(x.1, to), point(x.0, from)]
    };
    Pair { u: in_its_box(pair.u, which != 0), v: in_its_box(pair.v, which < 2) }.reordered(random)
}

/// Both large, or one beside the other's corner at zero: near and far where a difference, a product or a pair
/// test overflows.
pub fn overflowing(random: &mut Random) -> Pair {
    let pair = any(random);
    if random.once_in(2) {
        let exponent =
            if random.once_in(2) { random.between(1_000, 1_023) } else { random.between(500, 520) };
        return pair.scaled_to(exponent);
    }
    let [x, y] = [0; 2].map(|_| random.pick(&[Gap::None, Gap::Ulp, Gap::Centimetre, Gap::Wide]));
    let x = if random.once_in(2) { Along::Before(x) } else { Along::Within };
    let pair = placed(random, x, Along::Before(y), true);
    let v = Pair { u: pair.v, v: pair.v }.scaled_to(random.between(510, 1_000)).v;
    Pair { u: pair.u, v }.shuffled(random)
}

/// An infinity or a NaN in some place or other; the boxes that were laid stay those of the other values.
pub fn not_finite(random: &mut Random) -> Case {
    let mut case = any(random).case(random);
    for _ in 0..random.pick(&[1, 1, 2]) {
        refused::spoil(&mut case.values, random);
    }
    case
}

fn laid(random: &mut Random, x: Along, y: Along) -> Pair {
    let at_zero = random.once_in(3);
    placed(random, x, y, at_zero).shuffled(random)
}

/// V's box begins at zero if that is asked for, and all zeros have any sign.
fn placed(random: &mut Random, x: Along, y: Along, at_zero: bool) -> Pair {
    let whole =
        [x, y].iter().any(|along| matches!(along, Along::Before(Gap::Centimetre))) || random.once_in(2);
    let pair = match random.below(3) {
        _ if !whole => ordinary::real_values(random),
        0 => ordinary::small_grid(random),
        1 => ordinary::whole_centimetres(random),
        _ => touching::any(random),
    };
    let [mut v_x, mut v_y] = [pair.v.map(|p| p.x), pair.v.map(|p| p.y)];
    if at_zero {
        v_x = from_zero(v_x);
        v_y = from_zero(v_y);
    }
    let u_x = x.lay(random, pair.u.map(|p| p.x), ends_of(v_x), whole);
    let u_y = y.lay(random, pair.u.map(|p| p.y), ends_of(v_y), whole);
    let triangle = |x: [f64; 3], y: [f64; 3]| [0, 1, 2].map(|k| point(x[k], y[k]));
    let mut signed = |value: f64| if value == 0.0 { random.sign() * 0.0 } else { value };
    Pair { u: triangle(u_x, u_y), v: triangle(v_x, v_y) }.map(|p| point(signed(p.x), signed(p.y)))
}

impl Along {
    /// The three values moved, or drawn together, to where they belong beside V's ends.
    fn lay(self, random: &mut Random, values: [f64; 3], v: (f64, f64), whole: bool) -> [f64; 3] {
        let u = ends_of(values);
        let (width, v_width) = (u.1 - u.0, v.1 - v.0);
        let rounded = |value: f64| if whole { value.round() } else { value };
        let (low, high) = match self {
            Along::Before(gap) => {
                let end = match gap {
                    Gap::None => v.0,
                    Gap::Ulp => moved_by_ulps(v.0, -1),
                    Gap::Centimetre => v.0 - 1.0,
                    Gap::Wide => rounded(v.0 - (1.0 + width) * random.real(0.1, 5.0)),
                };
                (rounded(end - width).min(end), end)
            }
            Along::Across => {
                let low = rounded(v.0 - width + random.real(0.1, 0.9) * (width + v_width));
                (low, low + width)
            }
            Along::Equal => v,
            Along::Within => {
                let mut part = || rounded(v.0 + random.unit() * v_width).max(v.0).min(v.1);
                let (one, other) = (part(), part());
                (one.min(other), one.max(other))
            }
        };
        let mut order = [0, 1, 2];
        order.sort_unstable_by(|a, b| values[*a].total_cmp(&values[*b]));
        let part = if width > 0.0 { (values[order[1]] - u.0) / width } else { 0.0 };
        let mut laid = [0.0; 3];
        laid[order[0]] = low;
        laid[order[1]] = rounded(low + part * (high - low)).max(low).min(high);
        laid[order[2]] = high;
        laid
    }
}

fn from_zero(values: [f64; 3]) -> [f64; 3] {
    let (low, _) = ends_of(values);
    values.map(|value| value - low)
}

/// The least and the largest.
fn ends_of([a, b, c]: [f64; 3]) -> (f64, f64) {
    (a.min(b).min(c), a.max(b).max(c))
}
