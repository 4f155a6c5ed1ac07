//! Pairs of which rounding tells a formula of the rules from another that says the same of exact
//! numbers: d and e from another corner, the area's terms in another order or halved one by one.

use crate::case::{times_power_of_two, Case};

const AROUND: [f64; 6] = [-100.0, -100.0, 300.0, -100.0, -100.0, 300.0];
/// On one line but for rounding: its cross is zero from its first corner, and not from the others.
const FLAT_FROM_FIRST: [f64; 6] = [-0.5, 0.3, -1.1, -1.2, -0.9, -0.7];
/// The other way round.
const FLAT_FROM_OTHERS: [f64; 6] = [0.8, -0.2, 1.0, -0.7, 1.6, -2.2];
const SIX_CORNERS: [f64; 12] = [0.9, 0.0, -0.1, 0.8, 0.6, -0.7, -0.7, -0.1, 0.8, 0.4, 0.9, -0.7];
const TERMS_OF_BOTH_SIGNS: [f64; 12] = [0.1, 0.1, -0.3, 0.7, 0.0, -0.64, -0.2, -0.6, 0.3, -0.7, 0.1, -0.4];
/// Times 2^−537, its area's terms are 2 and 3 of the smallest values above zero.
const ODD_TERM: [f64; 12] = [0.0, 1.0, 0.0, -1.0, 3.0, 1.0, 0.0, 0.0, 4.0, 0.0, 0.0, 4.0];
const NEGATIVE_ZERO_TERM: [f64; 12] = [1.0, 1.0, -0.0, 2.0, 2.0, 2.0, 1.0, -2.0, -0.0, 2.0, -2.0, 1.0];
const NEGATIVE_ZERO_X: [f64; 12] = [-2.0, -0.0, -3.0, 1.0, 3.0, -2.0, -2.0, 0.0, -1.0, -1.0, -1.0, -2.0];

/// All of them, with a room of twelve.
pub fn in_turn() -> Vec<Case> {
    let inputs = [
        [AROUND, FLAT_FROM_FIRST].concat(),
        [AROUND, FLAT_FROM_OTHERS].concat(),
        [FLAT_FROM_FIRST, AROUND].concat(),
        [FLAT_FROM_OTHERS, AROUND].concat(),
        SIX_CORNERS.to_vec(),
        TERMS_OF_BOTH_SIGNS.to_vec(),
        ODD_TERM.map(|value| times_power_of_two(value, -537)).to_vec(),
        NEGATIVE_ZERO_TERM.to_vec(),
        NEGATIVE_ZERO_X.to_vec(),
    ];
    inputs.into_iter().map(|values| Case { values, room_length: 12 }).collect()
}
