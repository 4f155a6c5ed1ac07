//! What one pair went through, so that a comparison can say what it has covered.

pub mod boxes;

use crate::decision::{Decision, APART, OVERLAPPING, TOUCHING};
use crate::exact::{common_to, Common};
use crate::triangles::lines::{Parameters, Signs};
use crate::triangles::numbers::{difference, Point};
use crate::triangles::orders::{ends_of, lines_crossed, pair_test, Order};
use crate::triangles::positions::{self, area_of, area_sum, crossing_corner, RingCorner};
use crate::triangles::ring::{Place, Ring};
use crate::triangles::trace::Trace;
use crate::triangles::Refusal;
use boxes::{Boxes, Kind};

#[derive(Clone, Default)]
pub struct Coverage {
    pub refusal: Option<Refusal>,
    pub decision: Decision,
    /// None where there are fewer than twelve values.
    pub boxes: Option<Boxes>,
    /// What the triangles truly share, where it was looked at.
    common: Option<Common>,
    pub denominator_overflowed: bool,
    pub t_was_minus_zero: bool,
    pub position_had_minus_zero: bool,
    /// Ties: a pair test that came out as a zero of either sign.
    pub pair_test_was_zero: bool,
    signs: [Signs; 3],
    parameters: [Parameters; 3],
    /// By edge, then by the pair (0,1), (0,2), (1,2).
    tested: [[bool; 3]; 3],
    orders: Option<[Order; 3]>,
    ring: Option<([Point; 3], Ring)>,
    positions: Vec<Point>,
}

const PAIRS: [(usize, usize); 3] = [(0, 1), (0, 2), (1, 2)];

impl Trace for Coverage {
    fn refused(&mut self, refusal: Refusal) {
        self.refusal = Some(refusal);
    }

    fn parameters(&mut self, parameters: &[Parameters; 3], signs: &[Signs; 3]) {
        self.parameters = *parameters;
        self.signs = *signs;
    }

    fn pair_test(&mut self, edge: usize, a: usize, b: usize) {
        self.tested[edge][a + b - 1] = true;
        if self.test_on(edge, a, b) == Some(0.0) {
            self.pair_test_was_zero = true;
        }
    }

    fn orders(&mut self, orders: &[Order; 3]) {
        self.orders = Some(*orders);
    }

    fn ring(&mut self, u: &[Point; 3], ring: &Ring) {
        self.ring = Some((*u, *ring));
    }

    fn denominator_overflowed(&mut self) {
        self.denominator_overflowed = true;
    }

    fn corner(&mut self, corner: RingCorner) {
        if let positions::Kind::Crossing { t, .. } = corner.kind {
            self.t_was_minus_zero |= is_minus_zero(t);
        }
        let position = corner.position;
        self.position_had_minus_zero |= is_minus_zero(position.x) || is_minus_zero(position.y);
        self.positions.push(position);
    }
}

impl Coverage {
    /// To be told after the run of the rules that is traced.
    pub fn decided(&mut self, values: &[f64], decision: Decision) {
        self.decision = decision;
        self.boxes = Boxes::around(values);
        if decision.number == 0 && self.is_close(values) {
            self.common = values.try_into().ok().and_then(common_to);
        }
    }

    /// Whether rounding or a tie may have decided: the others are spared the look at what they truly share.
    fn is_close(&self, values: &[f64]) -> bool {
        const LITTLE: f64 = 1e-9;
        let larger = |most: f64, value: &f64| most.max(value.abs());
        match self.decision.kind {
            OVERLAPPING => {
                let (area, size) = (self.decision.area, values.iter().fold(0.0, larger));
                !area.is_normal() || area <= LITTLE * size * size
            }
            TOUCHING => true,
            _ => {
                let mut parameters = self.parameters.iter().flatten();
                let little = LITTLE * parameters.clone().fold(0.0, larger);
                self.pair_test_was_zero || parameters.any(|parameter| parameter.abs() <= little)
            }
        }
    }

    pub fn decided_as(&self, kind: u32) -> bool {
        self.decision.number == 0 && self.decision.kind == kind
    }

    pub fn truly(&self, common: Common) -> bool {
        self.common == Some(common)
    }

    /// Decided by boxes.
    pub fn far(&self) -> bool {
        self.decision.number == 0 && self.boxes.map_or(false, |boxes| boxes.far())
    }

    /// Decided by boxes that lie so, where the triangle rules alone would say something else than apart.
    pub fn far_and_seen(&self, lie: impl Fn(&Boxes) -> bool) -> bool {
        let by_the_rules = self.refusal.map_or(self.has_a_ring(), |refusal| refusal != Refusal::Length);
        self.far() && by_the_rules && self.boxes.map_or(false, |boxes| lie(&boxes))
    }

    /// Not apart, with boxes that lie so.
    pub fn near_and_seen(&self, lie: impl Fn(&Boxes) -> bool) -> bool {
        let asked = |boxes: Boxes| boxes.values == Kind::Finite && boxes.near() && lie(&boxes);
        self.decision.number != 1 && !self.decided_as(APART) && self.boxes.map_or(false, asked)
    }

    /// By the triangle rules, also of a pair that is apart.
    pub fn has_a_ring(&self) -> bool {
        self.accepted() && !self.ring_places().is_empty()
    }

    pub fn ring_has_an_area(&self) -> bool {
        area_of(&self.positions).map_or(false, |area| area > 0.0)
    }

    /// Whether the ring touches, though the sum of its area is not zero.
    pub fn halved_to_zero(&self) -> bool {
        self.decided_as(TOUCHING) && area_sum(&self.positions).map_or(false, |sum| sum != 0.0)
    }

    pub fn accepted(&self) -> bool {
        self.refusal.is_none()
    }

    pub fn ring_places(&self) -> &[Place] {
        self.ring.as_ref().map_or(&[], |(_, ring)| ring.as_slice())
    }

    pub fn pair_tests_computed(&self) -> usize {
        self.tested.iter().flatten().filter(|tested| **tested).count()
    }

    /// Whether the area was refused though all its differences are finite.
    pub fn area_product_overflowed(&self) -> bool {
        self.refusal == Some(Refusal::OverflowAtArea)
            && self.positions.iter().all(|corner| difference(*corner, self.positions[0]).is_some())
    }

    /// Accepted, though on an edge that crosses `crossed` lines a test of two of them would have
    /// overflowed had it been reached.
    pub fn unreached_test_overflows(&self, crossed: usize) -> bool {
        // Products of smaller ones are finite, which most pairs are soon done with.
        const LARGE: f64 = 1e150;
        self.accepted()
            && self.parameters.iter().flatten().any(|parameter| parameter.abs() > LARGE)
            && (0..3).any(|edge| {
                let lines = lines_crossed(edge, &self.signs);
                let on_edge = |line| lines.as_slice().contains(&line);
                lines.len() == crossed
                    && PAIRS.iter().enumerate().any(|(pair, &(a, b))| {
                        on_edge(a)
                            && on_edge(b)
                            && !self.tested[edge][pair]
                            && self.test_on(edge, a, b).is_none()
                    })
            })
    }

    /// Accepted, though a crossing that is not in the ring has no finite position, because of
    /// t's denominator or because of Q − P.
    pub fn unreached_position_overflows(&self, by_denominator: bool) -> bool {
        let (u, ring) = match &self.ring {
            Some(found) if self.accepted() => found,
            _ => return false,
        };
        // Differences of smaller ones are finite.
        const LARGE: f64 = 1e307;
        let large = |value: &f64| value.abs() > LARGE;
        if !self.parameters.iter().flatten().any(large) && !u.iter().any(|p| large(&p.x) || large(&p.y)) {
            return false;
        }
        (0..3).any(|edge| {
            lines_crossed(edge, &self.signs).as_slice().iter().any(|&line| {
                let tried = || self.overflow_at(u, edge, line);
                !ring.as_slice().contains(&Place::Crossing { edge, line })
                    && tried().map_or(false, |tried| tried.denominator_overflowed == by_denominator)
            })
        })
    }

    /// Whether the place is a crossing whose position overflows, taken by itself.
    pub fn has_no_position(&self, place: &Place) -> bool {
        match (&self.ring, *place) {
            (Some((u, _)), Place::Crossing { edge, line }) => self.overflow_at(u, edge, line).is_some(),
            _ => false,
        }
    }

    /// What a crossing without a position goes through; none where it has one.
    fn overflow_at(&self, u: &[Point; 3], edge: usize, line: usize) -> Option<Coverage> {
        let mut tried = Coverage::default();
        match crossing_corner(edge, line, u, &self.parameters, &self.signs, &mut tried) {
            Some(_) => None,
            None => Some(tried),
        }
    }

    /// Of a crossing: whether the edge starts at the end with plus on the line.
    pub fn starts_with_plus(&self, edge: usize, line: usize) -> bool {
        self.signs[ends_of(edge).0].plus(line)
    }

    /// The signs and orders packed into one number, where all three orders were decided.
    pub fn combination(&self) -> Option<u32> {
        let mut packed = 0;
        for signs in self.signs {
            for line in 0..3 {
                packed = packed * 2 + u32::from(signs.plus(line));
            }
        }
        for order in self.orders.as_ref()? {
            // A leading one keeps orders of different lengths apart.
            let digits = order.as_slice().iter().fold(1, |digits, line| digits * 3 + *line as u32);
            packed = packed * 64 + digits;
        }
        Some(packed)
    }

    fn test_on(&self, edge: usize, a: usize, b: usize) -> Option<f64> {
        let (start, end) = ends_of(edge);
        pair_test(&self.parameters, a, b, start.min(end), start.max(end))
    }
}

pub fn is_minus_zero(value: f64) -> bool {
    value == 0.0 && value.is_sign_negative()
}
