//! How the boxes around U and V lie, so that a comparison can say at which borders it has looked.

use crate::boxes::Upright;
use crate::case::moved_by_ulps;

/// Least and largest x and y, of the values that are numbers.
#[derive(Clone, Copy)]
pub struct Boxes {
    u: [Ends; 2],
    v: [Ends; 2],
    pub values: Kind,
}

#[derive(Clone, Copy)]
struct Ends {
    low: f64,
    high: f64,
}

#[derive(Clone, Copy, PartialEq, Eq)]
pub enum Kind {
    Finite,
    /// Infinities and no NaN.
    Infinite,
    /// At least one NaN.
    NotNumbers,
}

/// Where U lies, seen from V: along this axis, and before V or behind it.
#[derive(Clone, Copy)]
pub struct Side {
    pub axis: usize,
    pub before: bool,
}

pub const LEFT: Side = Side { axis: 0, before: true };
pub const RIGHT: Side = Side { axis: 0, before: false };
pub const BELOW: Side = Side { axis: 1, before: true };
pub const ABOVE: Side = Side { axis: 1, before: false };
const SIDES: [Side; 4] = [LEFT, RIGHT, BELOW, ABOVE];

impl Boxes {
    /// Of the first twelve values; none if there are fewer.
    pub fn around(values: &[f64]) -> Option<Boxes> {
        let values = values.get(..12)?;
        let kind = if values.iter().any(|value| value.is_nan()) {
            Kind::NotNumbers
        } else if values.iter().any(|value| value.is_infinite()) {
            Kind::Infinite
        } else {
            Kind::Finite
        };
        let ends = |first: usize| {
            let [a, b, c] = [values[first], values[first + 2], values[first + 4]];
            Ends { low: a.min(b).min(c), high: a.max(b).max(c) }
        };
        Some(Boxes { u: [ends(0), ends(1)], v: [ends(6), ends(7)], values: kind })
    }

    /// The same of a file's triangles, or of recordings.
    pub fn of(u: &Upright, v: &Upright) -> Boxes {
        let ends = |of: &Upright| {
            [0, 1].map(|axis| Ends { low: f64::from(of.low[axis]), high: f64::from(of.high[axis]) })
        };
        Boxes { u: ends(u), v: ends(v), values: Kind::Finite }
    }

    /// U's end and V's end that face each other on that side.
    fn facing(&self, side: Side) -> (f64, f64) {
        let (u, v) = (self.u[side.axis], self.v[side.axis]);
        if side.before {
            (u.high, v.low)
        } else {
            (u.low, v.high)
        }
    }

    fn beyond(&self, side: Side) -> bool {
        let (u, v) = self.facing(side);
        if side.before {
            u < v
        } else {
            u > v
        }
    }

    fn at_the_end(&self, side: Side) -> bool {
        let (u, v) = self.facing(side);
        u == v
    }

    pub fn far(&self) -> bool {
        SIDES.iter().any(|side| self.beyond(*side))
    }

    /// They are neither near nor far where no value along an axis is a number.
    pub fn near(&self) -> bool {
        (0..2).all(|axis| {
            let (u, v) = (self.u[axis], self.v[axis]);
            u.low <= v.high && v.low <= u.high
        })
    }

    pub fn far_along(&self, axis: usize) -> bool {
        SIDES.iter().any(|side| side.axis == axis && self.beyond(*side))
    }

    /// More than a point of that axis.
    fn share_a_stretch(&self, axis: usize) -> bool {
        let (u, v) = (self.u[axis], self.v[axis]);
        u.low.max(v.low) < u.high.min(v.high)
    }

    /// An edge on that side and no more.
    pub fn share_an_edge(&self, side: Side) -> bool {
        self.at_the_end(side) && self.share_a_stretch(1 - side.axis) && !self.share_a_stretch(side.axis)
    }

    pub fn share_a_corner(&self, x: Side, y: Side) -> bool {
        [x, y].iter().all(|side| self.at_the_end(*side) && !self.share_a_stretch(side.axis))
    }

    pub fn share_any_corner(&self) -> bool {
        [LEFT, RIGHT].iter().any(|x| [BELOW, ABOVE].iter().any(|y| self.share_a_corner(*x, *y)))
    }

    /// An edge, a part of one or a point, somewhere.
    pub fn share_a_border(&self) -> bool {
        self.near() && (0..2).any(|axis| !self.share_a_stretch(axis))
    }

    /// The two ends are neighbours among all values; along the other axis the boxes share a point.
    pub fn an_ulp_apart(&self, side: Side) -> bool {
        let (u, v) = self.facing(side);
        self.apart_alone(side) && moved_by_ulps(u, if side.before { 1 } else { -1 }) == v
    }

    /// The same with whole centimetres.
    pub fn a_centimetre_apart(&self, side: Side) -> bool {
        let (u, v) = self.facing(side);
        self.apart_alone(side) && u.fract() == 0.0 && (u - v).abs() == 1.0
    }

    fn apart_alone(&self, side: Side) -> bool {
        self.beyond(side) && !self.far_along(1 - side.axis)
    }

    /// One box ends, and the other begins, at zero: the lower one at a zero of this sign, the upper one at a
    /// zero of the other.
    pub fn meet_at_zeros(&self, lower_is_minus: bool) -> bool {
        self.near()
            && SIDES.iter().any(|side| {
                let (u, v) = self.facing(*side);
                let (lower, upper) = if side.before { (u, v) } else { (v, u) };
                self.at_the_end(*side)
                    && lower == 0.0
                    && lower.is_sign_negative() == lower_is_minus
                    && upper.is_sign_negative() != lower_is_minus
            })
    }

    /// Apart by an ulp, one of them at zero.
    pub fn an_ulp_from_zero(&self) -> bool {
        SIDES.iter().any(|side| {
            let (u, v) = self.facing(*side);
            (u == 0.0 || v == 0.0) && self.an_ulp_apart(*side)
        })
    }

    pub fn equal(&self) -> bool {
        (0..2).all(|axis| self.u[axis].low == self.v[axis].low && self.u[axis].high == self.v[axis].high)
    }

    /// U's is a part of V's and does not reach its border.
    pub fn u_within(&self) -> bool {
        (0..2).all(|axis| self.v[axis].low < self.u[axis].low && self.u[axis].high < self.v[axis].high)
    }

    pub fn v_within(&self) -> bool {
        Boxes { u: self.v, v: self.u, values: self.values }.u_within()
    }
}
