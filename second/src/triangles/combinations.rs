//! Every combination of signs with admissible orders, and what its ring looks like.

use super::lines::Signs;
use super::orders::{admissible, lines_crossed, order_from, Order};
use super::ring::{corners_in_u, crossings_along, met_on_the_walk, ring_of, vertices_in_v};

/// The seven signs that a vertex can have.
fn vertex_signs() -> Vec<Signs> {
    let all = (0..8).map(|bits| Signs::of(bits & 1 != 0, bits & 2 != 0, bits & 4 != 0));
    all.filter(|signs| *signs != Signs::ALL_MINUS).collect()
}

fn sign_patterns() -> Vec<[Signs; 3]> {
    let one = vertex_signs();
    let mut patterns = Vec::new();
    for &u0 in &one {
        for &u1 in &one {
            patterns.extend(one.iter().map(|&u2| [u0, u1, u2]));
        }
    }
    patterns
}

fn orders_of(lines: &[usize]) -> Vec<Vec<usize>> {
    if lines.is_empty() {
        return vec![Vec::new()];
    }
    let mut all = Vec::new();
    for &first in lines {
        let others: Vec<usize> = lines.iter().copied().filter(|line| *line != first).collect();
        all.extend(orders_of(&others).into_iter().map(|rest| [vec![first], rest].concat()));
    }
    all
}

fn admissible_orders(edge: usize, signs: &[Signs; 3]) -> Vec<Order> {
    let all = orders_of(lines_crossed(edge, signs).as_slice());
    all.iter().filter(|order| admissible(signs[edge], order)).map(|order| order_from(order)).collect()
}

fn combinations() -> Vec<([Signs; 3], [Order; 3])> {
    let mut all = Vec::new();
    for signs in sign_patterns() {
        for first in admissible_orders(0, &signs) {
            for second in admissible_orders(1, &signs) {
                for third in admissible_orders(2, &signs) {
                    all.push((signs, [first, second, third]));
                }
            }
        }
    }
    all
}

#[test]
fn rings_have_no_or_three_to_six_corners() {
    assert_eq!(sign_patterns().len(), 343);
    let mut sizes = [0; 7];
    for (signs, orders) in combinations() {
        let crossings = crossings_along(&signs, &orders);
        let met = met_on_the_walk(vertices_in_v(&signs), &crossings);
        sizes[ring_of(&met, corners_in_u(&crossings)).len()] += 1;
    }
    assert_eq!(sizes, [222, 0, 0, 436, 459, 216, 42]);
    assert_eq!(sizes.iter().sum::<usize>(), 1375);
}
