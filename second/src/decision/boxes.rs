//! Boxes that share a point, and boxes that share none: with triangles that the rules for triangles refuse it
//! shows which they are.

use super::worked::{expect, expect_refusal};
use super::{by_the_triangle_rules, decide, APART};
use crate::case::moved_by_ulps;
use crate::classes::decisions::{flat, in_the_corner, Sides, BEYOND, NEEDLES};
use crate::triangles::{intersect, ROOM};

fn expect_apart(values: &[f64]) {
    expect(values, 0, APART, 0.0);
    assert!(!decide(values).overlaps() && !decide(values).touches());
    assert!(by_the_triangle_rules(values).is_none());
}

/// The boxes share a point, in either order and seen from every side. Both have an area.
fn expect_near(one: Sides, other: Sides) {
    expect_asked(one, other);
    for [one, other] in from_all_sides(one, other) {
        expect_refusal(&[in_the_corner(one), flat(other)].concat(), 3);
        expect_refusal(&[flat(one), in_the_corner(other)].concat(), 5);
        expect_refusal(&[flat(one), flat(other)].concat(), 3);
    }
}

/// The same of any boxes, with no more said about what the triangle rules answer.
fn expect_asked(one: Sides, other: Sides) {
    for [one, other] in from_all_sides(one, other) {
        assert!(by_the_triangle_rules(&[in_the_corner(one), in_the_corner(other)].concat()).is_some());
        assert_ne!(decide(&[in_the_corner(one), flat(other)].concat()).number, 0);
        assert_ne!(decide(&[flat(one), in_the_corner(other)].concat()).number, 0);
    }
}

fn expect_far(one: Sides, other: Sides) {
    for [one, other] in from_all_sides(one, other) {
        expect_apart(&[in_the_corner(one), in_the_corner(other)].concat());
        expect_apart(&[in_the_corner(one), flat(other)].concat());
        expect_apart(&[flat(one), in_the_corner(other)].concat());
        expect_apart(&[flat(one), flat(other)].concat());
    }
}

/// Either of them first, axes exchanged or not, each of them turned over or not.
fn from_all_sides(one: Sides, other: Sides) -> Vec<[Sides; 2]> {
    let mut all = vec![[one, other]];
    all.extend(all.clone().iter().map(|[one, other]| [*other, *one]));
    let views: [fn(Sides) -> Sides; 3] = [
        |[left, bottom, right, top]| [-right, bottom, -left, top],
        |[left, bottom, right, top]| [left, -top, right, -bottom],
        |[left, bottom, right, top]| [bottom, left, top, right],
    ];
    for view in views {
        all.extend(all.clone().iter().map(|pair| pair.map(view)));
    }
    all
}

const MIDDLE: Sides = [0.0, 0.0, 4.0, 4.0];

#[test]
fn boxes_that_share_a_point() {
    // Equal, within one another with and without a side in common, and across.
    expect_near(MIDDLE, MIDDLE);
    expect_near(MIDDLE, [1.0, 1.0, 2.0, 3.0]);
    expect_near(MIDDLE, [0.0, 1.0, 2.0, 3.0]);
    expect_near(MIDDLE, [-2.0, 1.0, 6.0, 3.0]);
    expect_near(MIDDLE, [2.0, 2.0, 6.0, 6.0]);
    // No more than an edge, from end to end, in part and beyond both ends; no more than a corner.
    expect_near(MIDDLE, [4.0, 0.0, 8.0, 4.0]);
    expect_near(MIDDLE, [4.0, 1.0, 8.0, 3.0]);
    expect_near(MIDDLE, [4.0, -2.0, 8.0, 6.0]);
    expect_near(MIDDLE, [4.0, 4.0, 8.0, 8.0]);
    // Boxes of no width or no height, at an edge and at a corner.
    expect_asked(MIDDLE, [4.0, 1.0, 4.0, 3.0]);
    expect_asked(MIDDLE, [4.0, 4.0, 4.0, 4.0]);
    expect_asked([1.0, 1.0, 1.0, 1.0], [1.0, 1.0, 1.0, 1.0]);
}

#[test]
fn boxes_that_share_no_point() {
    let ulp_on = moved_by_ulps(4.0, 1);
    for beyond in [5.0, ulp_on, 1e300] {
        let far = 2.0 * beyond;
        expect_far(MIDDLE, [beyond, 0.0, far, 4.0]);
        expect_far(MIDDLE, [beyond, 1.0, far, 2.0]);
        expect_far(MIDDLE, [beyond, 4.0, far, 8.0]);
        expect_far(MIDDLE, [beyond, -8.0, far, 8.0]);
        expect_far(MIDDLE, [beyond, beyond, far, far]);
        expect_far(MIDDLE, [beyond, 1.0, beyond, 2.0]);
        expect_far(MIDDLE, [beyond, beyond, beyond, beyond]);
    }
    // Two neighbours of a million, and of the largest value.
    expect_far([0.0, 0.0, 999_999.0, 4.0], [1e6, 0.0, 2e6, 4.0]);
    let below = moved_by_ulps(f64::MAX, -1);
    expect_far([0.0, 0.0, below, 4.0], [f64::MAX, 0.0, f64::MAX, 4.0]);
    expect_asked([0.0, 0.0, f64::MAX, 4.0], [f64::MAX, 0.0, f64::MAX, 4.0]);
}

#[test]
fn zeros_of_both_signs_are_one_place() {
    let smallest = f64::from_bits(1);
    for zero in [0.0, -0.0] {
        let upper = [zero, zero, 4.0, 4.0];
        for other in [0.0, -0.0] {
            expect_near([-4.0, -4.0, other, other], upper);
            expect_asked([other, other, other, other], upper);
        }
        expect_far([-4.0, -4.0, -smallest, 1.0], upper);
        expect_far([-4.0, -4.0, -smallest, -smallest], upper);
        expect_far([-4.0, -4.0, zero, zero], [smallest, -1.0, 4.0, 4.0]);
    }
}

/// In the middle of the one box, or at its edges and corners, or beyond them.
#[test]
fn overflow_near_and_far() {
    let small = |x: f64, y: f64| [x, y, x + 1.0, y, x, y + 1.0];
    let large = [0.0, 0.0, 1e300, 0.0, 0.0, 1e300];
    for (x, y) in [(1.0, 1.0), (-1.0, 0.0), (0.0, -1.0), (-1.0, -1.0)] {
        expect_refusal(&[small(x, y), large].concat(), 4);
        expect_refusal(&[large, small(x, y)].concat(), 4);
    }
    for (x, y) in [(-2.0, 1.0), (1.0, -2.0), (-2.0, -2.0), (-1e300, -2.0)] {
        expect_apart(&[small(x, y), large].concat());
        expect_apart(&[large, small(x, y)].concat());
    }
    // Too far from one another for a difference, and within the boxes of one another as well.
    let most = f64::MAX;
    let [left, right] = [[-most, 0.0, -most, 1.0, 0.0, 0.0], [most, 0.0, most, 1.0, 0.0, 1.0]];
    expect_refusal(&[left, right].concat(), 4);
    let [left, right] = [[-most, 0.0, -most, 1.0, -1.0, 0.0], [most, 0.0, most, 1.0, 0.0, 1.0]];
    expect_apart(&[left, right].concat());
}

/// Whatever the other values are: boxes are looked at only where all twelve are finite.
#[test]
fn values_that_are_not_finite() {
    let near = [in_the_corner(MIDDLE), in_the_corner([4.0, 4.0, 8.0, 8.0])].concat();
    let far = [in_the_corner(MIDDLE), in_the_corner([5.0, 5.0, 8.0, 8.0])].concat();
    for values in [near, far] {
        for place in 0..12 {
            for value in [f64::NAN, -f64::NAN, f64::INFINITY, f64::NEG_INFINITY] {
                let mut values = values.clone();
                values[place] = value;
                expect_refusal(&values, 2);
                assert!(by_the_triangle_rules(&values).is_some());
            }
        }
    }
    expect_refusal(&[f64::NAN; 12], 2);
}

#[test]
fn lengths_of_far_pairs() {
    let far = [in_the_corner(MIDDLE), in_the_corner([5.0, 5.0, 8.0, 8.0])].concat().repeat(3);
    for length in (0..=36).filter(|length| *length != 12) {
        expect_refusal(&far[..length], 1);
    }
    expect_apart(&far[..12]);
}

/// Beyond the tip of a needle, by one and two centimetres, the triangle rules find a ring, which stays
/// theirs. The pair is apart all the same.
#[test]
fn rounding_does_not_bring_far_pairs_together() {
    let [with_area, without] = [0, 1].map(|k| [BEYOND[k], NEEDLES[k]].concat());
    let answer = intersect(&with_area, &mut [0.0; ROOM]);
    assert!(answer.number == 0 && answer.n > 0 && (1.1e-10..1.3e-10).contains(&answer.area));
    let answer = intersect(&without, &mut [0.0; ROOM]);
    assert!(answer.number == 0 && answer.n > 0 && answer.area == 0.0);
    for k in 0..2 {
        expect_apart(&[BEYOND[k], NEEDLES[k]].concat());
        expect_apart(&[NEEDLES[k], BEYOND[k]].concat());
    }
}

/// A box may share much with another while the triangles share nothing: then the triangle rules say so.
#[test]
fn apart_by_the_triangle_rules() {
    let corner = in_the_corner(MIDDLE);
    let opposite = [4.0, 4.0, 3.0, 4.0, 4.0, 3.0];
    expect(&[corner, opposite].concat(), 0, APART, 0.0);
    assert!(by_the_triangle_rules(&[corner, opposite].concat()).is_some());
}
