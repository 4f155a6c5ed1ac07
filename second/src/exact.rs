//! How two triangles truly lie, in whole numbers and without rounding: no rule asks for it, but it tells
//! where rounding or a tie decided a pair.

/// What they have in common.
#[derive(Clone, Copy, Debug, PartialEq, Eq)]
pub enum Common {
    Nothing,
    /// Something, but no area.
    Contact,
    Area,
}

/// Where they have contact.
#[derive(Clone, Copy, Debug, PartialEq, Eq)]
pub enum Contact {
    Point,
    PartOfAnEdge,
    /// An edge of both from end to end.
    WholeEdge,
}

type Point = [i128; 2];
type Triangle = [Point; 3];

/// The common exponent, of which the numbers are multiples, may be so far below the largest of them.
/// Products of their differences then stay below 2^127.
const MOST_BITS: i32 = 60;

/// None where a value is not finite, a triangle is flat, or the values are of too unlike sizes.
pub fn common_to(values: &[f64; 12]) -> Option<Common> {
    let (u, v) = triangles_of(values)?;
    Some(match farthest_outside(&u, &v).max(farthest_outside(&v, &u)) {
        Side::Outside => Common::Nothing,
        Side::On => Common::Contact,
        Side::Inside => Common::Area,
    })
}

/// None also where there is no contact, or more than that.
pub fn contact_of(values: &[f64; 12]) -> Option<Contact> {
    if common_to(values)? != Common::Contact {
        return None;
    }
    let (u, v) = triangles_of(values)?;
    let mut contact = Contact::Point;
    for i in 0..3 {
        for j in 0..3 {
            let (one, other) = ([u[i], u[(i + 1) % 3]], [v[(j + 1) % 3], v[j]]);
            if one == other {
                return Some(Contact::WholeEdge);
            }
            if share_a_stretch(one, other) {
                contact = Contact::PartOfAnEdge;
            }
        }
    }
    Some(contact)
}

/// Both with their inside on the left of all edges.
fn triangles_of(values: &[f64; 12]) -> Option<(Triangle, Triangle)> {
    let whole = whole_numbers(values)?;
    let corner = |k: usize| [whole[2 * k], whole[2 * k + 1]];
    Some((left_hand([corner(0), corner(1), corner(2)])?, left_hand([corner(3), corner(4), corner(5)])?))
}

/// Where that part of a triangle lies which reaches farthest in. Two triangles have nothing in common
/// exactly if all of one lies outside an edge of the other, and no area exactly if it lies outside or on it.
#[derive(Clone, Copy, PartialEq, Eq, PartialOrd, Ord)]
enum Side {
    Inside,
    On,
    Outside,
}

/// By that edge of `one` which leaves `other` farthest outside.
fn farthest_outside(one: &Triangle, other: &Triangle) -> Side {
    let mut farthest = Side::Inside;
    for k in 0..3 {
        let inmost = other.iter().map(|p| cross(one[k], one[(k + 1) % 3], *p)).max().unwrap_or(0);
        if inmost < 0 {
            return Side::Outside;
        }
        if inmost == 0 {
            farthest = Side::On;
        }
    }
    farthest
}

/// Whether two edges lie on one line, with more than a point in common.
fn share_a_stretch([a, b]: [Point; 2], [c, d]: [Point; 2]) -> bool {
    cross(a, b, c) == 0
        && cross(a, b, d) == 0
        && (0..2).any(|axis| {
            let (low, high) = (a[axis].min(b[axis]), a[axis].max(b[axis]));
            let (other_low, other_high) = (c[axis].min(d[axis]), c[axis].max(d[axis]));
            low.max(other_low) < high.min(other_high)
        })
}

/// Above zero if `p` lies on the left of the line from `a` to `b`.
fn cross(a: Point, b: Point, p: Point) -> i128 {
    (b[0] - a[0]) * (p[1] - a[1]) - (b[1] - a[1]) * (p[0] - a[0])
}

/// With its inside on the left of all edges; none if it is flat.
fn left_hand([a, b, c]: Triangle) -> Option<Triangle> {
    match cross(a, b, c).signum() {
        1 => Some([a, b, c]),
        -1 => Some([a, c, b]),
        _ => None,
    }
}

/// The same values in units of the smallest bit that any of them has.
fn whole_numbers(values: &[f64; 12]) -> Option<[i128; 12]> {
    if values.iter().any(|value| !value.is_finite()) {
        return None;
    }
    let parts = values.map(parts_of);
    let of_bits = parts.iter().filter(|(mantissa, _)| *mantissa != 0);
    let unit = of_bits.clone().map(|(mantissa, power)| power + mantissa.trailing_zeros() as i32).min()?;
    let end = of_bits.map(|(mantissa, power)| power + 64 - mantissa.abs().leading_zeros() as i32).max()?;
    if end - unit > MOST_BITS {
        return None;
    }
    Some(parts.map(|(mantissa, power)| {
        let mantissa = i128::from(mantissa);
        if power >= unit {
            mantissa << (power - unit)
        } else {
            mantissa >> (unit - power).min(64)
        }
    }))
}

/// A whole number, and the power of two that it is to be multiplied by.
fn parts_of(value: f64) -> (i64, i32) {
    let biased = (value.to_bits() >> 52 & 0x7ff) as i32;
    let fraction = (value.to_bits() & ((1 << 52) - 1)) as i64;
    let mantissa = if biased == 0 { fraction } else { fraction | 1 << 52 };
    (if value.is_sign_negative() { -mantissa } else { mantissa }, biased.max(1) - 1075)
}

#[cfg(test)]
mod tests {
    use super::*;

    const V: [f64; 6] = [0.0, 0.0, 4.0, 0.0, 0.0, 4.0];

    /// The same either way, in other units, and with either triangle turned over.
    fn expect(u: [f64; 6], v: [f64; 6], common: Option<Common>, contact: Option<Contact>) {
        for unit in [1.0, 0.375, 1e6, f64::from_bits(1)] {
            let [a, b, c, d, e, f] = u;
            for u in [u, [c, d, a, b, e, f]] {
                for pair in [[u, v], [v, u]] {
                    let values: Vec<f64> = pair.concat().iter().map(|value| value * unit).collect();
                    let values = values.try_into().expect("twice six values");
                    assert_eq!((common_to(&values), contact_of(&values)), (common, contact));
                }
            }
        }
    }

    fn expect_contact(u: [f64; 6], contact: Contact) {
        expect(u, V, Some(Common::Contact), Some(contact));
    }

    #[test]
    fn what_is_shared() {
        expect([10.0, 10.0, 11.0, 10.0, 10.0, 11.0], V, Some(Common::Nothing), None);
        expect([0.0, -1.0, 4.0, -1.0, 0.0, -9.0], V, Some(Common::Nothing), None);
        // A corner of both, also at the end of two edges on one line; a corner on an edge.
        expect_contact([4.0, 0.0, 8.0, 0.0, 8.0, -4.0], Contact::Point);
        expect_contact([2.0, 2.0, 8.0, 2.0, 8.0, 9.0], Contact::Point);
        expect_contact([0.0, 0.0, 4.0, 0.0, 0.0, -4.0], Contact::WholeEdge);
        // A stretch within an edge, from one of its ends on, and beyond both.
        expect_contact([1.0, 0.0, 3.0, 0.0, 0.0, -4.0], Contact::PartOfAnEdge);
        expect_contact([0.0, 0.0, 3.0, 0.0, 0.0, -4.0], Contact::PartOfAnEdge);
        expect_contact([-1.0, 0.0, 9.0, 0.0, 0.0, -4.0], Contact::PartOfAnEdge);
        expect(V, V, Some(Common::Area), None);
        expect([1.0, 1.0, 2.0, 1.0, 1.0, 2.0], V, Some(Common::Area), None);
        expect([-3.0, 5.0, 5.0, -3.0, 9.0, 9.0], V, Some(Common::Area), None);
        expect([0.0, 0.0, 1.0, 1.0, 2.0, 2.0], V, None, None);
    }

    #[test]
    fn no_answer_for_unlike_sizes() {
        let mut values = [0.0, 0.0, 4.0, 0.0, 0.0, -4.0, 0.0, 0.0, 4.0, 0.0, 0.0, 4.0];
        for (value, answers) in [(-1e10, true), (-1e20, false), (f64::NAN, false), (f64::INFINITY, false)] {
            values[5] = value;
            assert_eq!(common_to(&values).is_some(), answers);
        }
    }
}
