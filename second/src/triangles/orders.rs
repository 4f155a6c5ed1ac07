//! The order in which one edge of U meets the lines that it crosses.

use super::lines::{Parameters, Signs};
use super::list::List;
use super::numbers::finite;
use super::trace::Trace;
use super::Refusal;

/// Lines in the order in which a walk meets them.
pub type Order = List<usize, 3>;

/// The vertices between which edge 0, 1 or 2 runs.
pub fn ends_of(edge: usize) -> (usize, usize) {
    (edge, (edge + 1) % 3)
}

/// The lines that the edge crosses, lowest number first.
pub fn lines_crossed(edge: usize, signs: &[Signs; 3]) -> Order {
    let (start, end) = ends_of(edge);
    let mut crossed = Order::new(0);
    for line in 0..3 {
        if signs[start].plus(line) != signs[end].plus(line) {
            crossed.push(line);
        }
    }
    crossed
}

/// The order along the edge, walked in its own direction.
pub fn order_along<T: Trace>(
    edge: usize,
    parameters: &[Parameters; 3],
    signs: &[Signs; 3],
    trace: &mut T,
) -> Result<Order, Refusal> {
    let crossed = lines_crossed(edge, signs);
    let tests = PairTests { edge, parameters, signs };
    match *crossed.as_slice() {
        [a, b] => tests.order_of_two(a, b, trace),
        [_, _, _] => tests.order_of_three(trace),
        _ => Ok(crossed),
    }
}

/// D of lines `a` < `b` between vertices `i` < `j`.
pub fn pair_test(parameters: &[Parameters; 3], a: usize, b: usize, i: usize, j: usize) -> Option<f64> {
    let first = finite(parameters[i][a] * parameters[j][b])?;
    let second = finite(parameters[j][a] * parameters[i][b])?;
    finite(first - second)
}

/// Whether no stretch of a walk from `start` in this order is minus on all three lines.
pub fn admissible(start: Signs, order: &[usize]) -> bool {
    let mut stretch = start;
    for &line in order {
        stretch = stretch.across(line);
        if stretch == Signs::ALL_MINUS {
            return false;
        }
    }
    true
}

struct PairTests<'a> {
    edge: usize,
    parameters: &'a [Parameters; 3],
    signs: &'a [Signs; 3],
}

impl PairTests<'_> {
    /// Whether a walk from vertex `from` to vertex `to` meets `line` before `other`.
    /// The test is made on the lower line and from the lower vertex; its outcome is turned once
    /// for each of the two that the question has the other way round.
    fn met_first<T: Trace>(
        &self,
        line: usize,
        other: usize,
        from: usize,
        to: usize,
        trace: &mut T,
    ) -> Result<bool, Refusal> {
        let (a, b) = (line.min(other), line.max(other));
        let (i, j) = (from.min(to), from.max(to));
        trace.pair_test(self.edge, a, b);
        let d = pair_test(self.parameters, a, b, i, j).ok_or(Refusal::OverflowAtPairTest)?;
        let a_first = if self.signs[i].plus(a) == self.signs[i].plus(b) { d >= 0.0 } else { d <= 0.0 };
        let turned = (line > other) != (from > to);
        Ok(a_first != turned)
    }

    fn order_of_two<T: Trace>(&self, a: usize, b: usize, trace: &mut T) -> Result<Order, Refusal> {
        let (start, end) = ends_of(self.edge);
        let a_may_lead = admissible(self.signs[start], &[a, b]);
        let b_may_lead = admissible(self.signs[start], &[b, a]);
        let a_leads =
            if a_may_lead && b_may_lead { self.met_first(a, b, start, end, trace)? } else { a_may_lead };
        Ok(if a_leads { order_from(&[a, b]) } else { order_from(&[b, a]) })
    }

    /// The two ends of such an edge have opposite signs everywhere, so one of them has one minus.
    fn order_of_three<T: Trace>(&self, trace: &mut T) -> Result<Order, Refusal> {
        let (start, end) = ends_of(self.edge);
        let minuses = (0..3).filter(|line| !self.signs[start].plus(*line)).count();
        if minuses == 1 {
            return self.order_from_one_minus(start, end, trace);
        }
        let mut order = self.order_from_one_minus(end, start, trace)?;
        order.reverse();
        Ok(order)
    }

    fn order_from_one_minus<T: Trace>(
        &self,
        from: usize,
        to: usize,
        trace: &mut T,
    ) -> Result<Order, Refusal> {
        let signs = self.signs[from];
        let (a, b, c) = if !signs.plus(0) {
            (1, 2, 0)
        } else if !signs.plus(1) {
            (0, 2, 1)
        } else {
            (0, 1, 2)
        };
        if self.met_first(a, c, from, to, trace)? {
            return Ok(order_from(&[a, c, b]));
        }
        if self.met_first(b, c, from, to, trace)? {
            return Ok(order_from(&[b, c, a]));
        }
        if self.met_first(a, b, from, to, trace)? {
            Ok(order_from(&[c, a, b]))
        } else {
            Ok(order_from(&[c, b, a]))
        }
    }
}

pub fn order_from(lines: &[usize]) -> Order {
    let mut order = Order::new(0);
    for &line in lines {
        order.push(line);
    }
    order
}
