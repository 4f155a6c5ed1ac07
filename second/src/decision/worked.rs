//! The twelve cases that document 01 works by hand, decided, and what they leave open.

use super::{decide, APART, OVERLAPPING, TOUCHING};
use crate::case::times_power_of_two;
use crate::classes::worked;

pub fn expect(values: &[f64], number: u32, kind: u32, area: f64) {
    let decision = decide(values);
    assert_eq!((decision.number, decision.kind), (number, kind));
    assert_eq!(decision.area.to_bits(), area.to_bits());
}

pub fn expect_refusal(values: &[f64], number: u32) {
    expect(values, number, APART, 0.0);
    let decision = decide(values);
    assert!(decision.overlaps() && !decision.touches());
}

#[test]
fn a_to_l() {
    let mut cases = worked::in_turn().into_iter().map(|case| case.values);
    let mut next = || cases.next().expect("there are twelve cases, K 24 times");
    for area in [0.5, 0.5, 20.0, 1.0] {
        expect(&next(), 0, OVERLAPPING, area);
    }
    expect(&next(), 0, APART, 0.0);
    expect(&next(), 0, TOUCHING, 0.0);
    expect(&next(), 0, OVERLAPPING, 6.0);
    expect(&next(), 0, OVERLAPPING, 0.5);
    expect_refusal(&next(), 3);
    expect_refusal(&next(), 5);
    (0..24).for_each(|_| expect_refusal(&next(), 2));
    expect_refusal(&next(), 4);
    assert!(cases.next().is_none());
}

/// U = V, whose ring's sum is 2^−1074; half of that is a tie between zero and 2^−1074, and zero is even.
/// Twice as wide the sum is 2^−1073, and half of it above zero.
#[test]
fn the_half_counts_and_not_the_sum() {
    let tiny = times_power_of_two(1.0, -537);
    let triangle = [0.0, 0.0, tiny, 0.0, 0.0, tiny];
    expect(&[triangle, triangle].concat(), 0, TOUCHING, 0.0);
    let wider = [0.0, 0.0, 2.0 * tiny, 0.0, 0.0, tiny];
    expect(&[wider, wider].concat(), 0, OVERLAPPING, f64::from_bits(1));
}

/// No room is lent, so that nothing but the input's length is 1.
#[test]
fn lengths() {
    let values = worked::in_turn()[0].values.repeat(3);
    for length in (0..=36).filter(|length| *length != 12) {
        expect_refusal(&values[..length], 1);
    }
    expect_refusal(&[f64::NAN; 11], 1);
    expect_refusal(&[f64::NAN; 13], 1);
}

/// Refused for a position and for the area as well, though neither is asked for: U's long edge runs
/// through V, and its ends are too far apart for their difference.
#[test]
fn positions_and_area_refuse() {
    let far = 0.6 * f64::MAX;
    let low = times_power_of_two(1.0, -540);
    let u = [0.0, low, -far, 0.0, far, 0.0];
    let v = [0.0, -8.0 * low, 8.0 * low, 8.0 * low, -8.0 * low, 8.0 * low];
    expect_refusal(&[u, v].concat(), 4);
}

/// Two pairs that look otherwise than they are decided, either way round. Of the first, V2 lies on U's
/// edge 2, where the pair test of lines 0 and 2 is zero and takes the crossings past the corner. Of the
/// second, V's edge from V0 to V2 is a part of U's edge 1, and the crossing at V0 is rounded off it.
#[test]
fn by_the_computed_ring_and_area() {
    let past = [0.0, -1.0, -1.0, 0.0, 0.0, 3.0];
    let passed = [4.0, 1.0, 2.0, -1.0, 0.0, 1.0];
    expect(&[past, passed].concat(), 0, APART, 0.0);
    expect(&[passed, past].concat(), 0, TOUCHING, 0.0);
    let longer = [458.0, -958.0, -13747.0, -4524.0, -1189.0, -975.0];
    let shorter = [-6479.0, -2470.0, -805.0, -156.0, -12827.0, -4264.0];
    expect(&[longer, shorter].concat(), 0, OVERLAPPING, times_power_of_two(1.0, -30));
    expect(&[shorter, longer].concat(), 0, TOUCHING, 0.0);
}
