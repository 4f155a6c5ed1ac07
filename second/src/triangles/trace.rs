//! What a run of the rules can tell someone who counts what it went through.

use super::lines::{Parameters, Signs};
use super::numbers::Point;
use super::orders::Order;
use super::positions::RingCorner;
use super::ring::Ring;
use super::Refusal;

/// Every call does nothing unless it is taken up, so a run that nobody traces pays nothing.
#[allow(unused_variables)]
pub trait Trace {
    fn refused(&mut self, refusal: Refusal) {}
    fn parameters(&mut self, parameters: &[Parameters; 3], signs: &[Signs; 3]) {}
    /// The test of lines `a` < `b` on the edge is about to be computed.
    fn pair_test(&mut self, edge: usize, a: usize, b: usize) {}
    fn orders(&mut self, orders: &[Order; 3]) {}
    fn ring(&mut self, u: &[Point; 3], ring: &Ring) {}
    fn denominator_overflowed(&mut self) {}
    fn corner(&mut self, corner: RingCorner) {}
}

impl Trace for () {}
