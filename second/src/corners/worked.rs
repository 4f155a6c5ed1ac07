//! Corners worked by hand: the twelve cases of document 01, and what they leave open.

use super::places::{places, BEYOND_32_BITS};
use super::{corner_at, Corner, CORNER_OF_V, CROSSING, VERTEX_OF_U};
use crate::case::times_power_of_two;
use crate::classes::decisions::{BEYOND, NEEDLES};
use crate::classes::{draw, worked, CLASSES};
use crate::decision::{decide, APART};
use crate::random::Random;
use crate::triangles::{intersect, ROOM};

const ORDINARY_V: [f64; 6] = [0.0, 0.0, 4.0, 0.0, 0.0, 4.0];
const TURNED_OVER: [f64; 6] = [0.0, 0.0, 0.0, 4.0, 4.0, 0.0];
const THIRD: f64 = 1.0 / 3.0;

fn vertex(which: u32, x: f64, y: f64) -> Corner {
    Corner { kind: VERTEX_OF_U, which, x, y, ..Corner::default() }
}

fn corner(which: u32, x: f64, y: f64) -> Corner {
    Corner { kind: CORNER_OF_V, which, x, y, ..Corner::default() }
}

fn crossing(edge: u32, line: u32, t: f64, x: f64, y: f64) -> Corner {
    Corner { number: 0, kind: CROSSING, which: 0, edge, line, t, x, y }
}

fn expect_ring(values: &[f64], ring: &[Corner]) {
    for (place, corner) in ring.iter().enumerate() {
        assert_eq!(corner_at(values, place).bits(), corner.bits(), "place {place}");
        expect_number(values, BEYOND_32_BITS + place, 6);
    }
    for place in [ring.len(), ring.len() + 1, 1 << 8, 1 << 31, BEYOND_32_BITS, 1 << 63, usize::MAX] {
        expect_number(values, place, 6);
    }
}

/// At any place.
fn expect_refusal(values: &[f64], number: u32) {
    for place in (0..9).chain([BEYOND_32_BITS, BEYOND_32_BITS + 1, usize::MAX]) {
        expect_number(values, place, number);
    }
}

fn expect_number(values: &[f64], place: usize, number: u32) {
    let refused = [u64::from(number), 0, 0, 0, 0, 0, 0, 0];
    assert_eq!(corner_at(values, place).bits(), refused, "place {place}");
}

#[test]
fn a_to_l() {
    let mut cases = worked::in_turn().into_iter().map(|case| case.values);
    let mut next = || cases.next().expect("there are twelve cases, K 24 times");
    let u_in_v = [vertex(0, 1.0, 1.0), vertex(1, 2.0, 1.0), vertex(2, 1.0, 2.0)];
    expect_ring(&next(), &u_in_v);
    expect_ring(&next(), &[corner(0, 1.0, 1.0), corner(1, 2.0, 1.0), corner(2, 1.0, 2.0)]);
    expect_ring(&next(), &ring_of_c());
    let ring_of_d = [
        vertex(0, 1.0, 1.0),
        crossing(0, 0, 0.25, 0.0, 1.0),
        corner(0, 0.0, 0.0),
        crossing(2, 1, 0.25, 1.0, 0.0),
    ];
    expect_ring(&next(), &ring_of_d);
    expect_ring(&next(), &[]);
    // Two places each at (4,0) and at (0,0): what a corner is does not go by where it is.
    let ring_of_f = [
        vertex(0, 0.0, 0.0),
        vertex(1, 4.0, 0.0),
        crossing(1, 1, 0.0, 4.0, 0.0),
        crossing(2, 1, 0.0, 0.0, 0.0),
    ];
    expect_ring(&next(), &ring_of_f);
    let ring_of_g = [
        crossing(0, 0, 0.625, 0.0, 2.0),
        crossing(0, 1, 0.625, 2.0, 0.0),
        corner(1, 4.0, 0.0),
        corner(2, 0.0, 4.0),
    ];
    expect_ring(&next(), &ring_of_g);
    expect_ring(&next(), &u_in_v);
    expect_refusal(&next(), 3);
    expect_refusal(&next(), 5);
    (0..24).for_each(|_| expect_refusal(&next(), 2));
    expect_refusal(&next(), 4);
    assert!(cases.next().is_none());
}

/// x is 8 times the first coordinate, y 8 times the second, and w is 64 − x − y: at U0 48, 48 and −32, at U1
/// −16, 48 and 32, at U2 48, −16 and 32.
fn ring_of_c() -> [Corner; 6] {
    [
        crossing(0, 2, 0.5, 2.0, 6.0),
        crossing(0, 0, 0.75, 0.0, 6.0),
        crossing(1, 0, 0.75, 0.0, 4.0),
        crossing(1, 1, 0.75, 4.0, 0.0),
        crossing(2, 1, 0.75, 6.0, 0.0),
        crossing(2, 2, 0.5, 6.0, 2.0),
    ]
}

/// x is 4 inside and −8 outside, so t is a third from the end inside. From the other end it would be two
/// thirds, and what is left of 1 is one ulp more than that.
#[test]
fn t_is_measured_from_the_end_with_plus() {
    let fall = 2.0 - THIRD;
    let leaving = [[1.0, 1.0, -2.0, 1.0, 1.0, 2.0], ORDINARY_V].concat();
    let ring = [
        vertex(0, 1.0, 1.0),
        crossing(0, 0, THIRD, 0.0, 1.0),
        crossing(1, 0, THIRD, 0.0, fall),
        vertex(2, 1.0, 2.0),
    ];
    expect_ring(&leaving, &ring);
    let entering = [[-2.0, 1.0, 1.0, 1.0, 1.0, 2.0], ORDINARY_V].concat();
    let ring = [
        crossing(0, 0, THIRD, 0.0, 1.0),
        vertex(1, 1.0, 1.0),
        vertex(2, 1.0, 2.0),
        crossing(2, 0, THIRD, 0.0, fall),
    ];
    expect_ring(&entering, &ring);
}

/// D with V turned over: V's corners 1 and 2 change places, and so do lines 0 and 1.
#[test]
fn v_turned_over() {
    let ring = [
        vertex(0, 1.0, 1.0),
        crossing(0, 1, 0.25, 0.0, 1.0),
        corner(0, 0.0, 0.0),
        crossing(2, 0, 0.25, 1.0, 0.0),
    ];
    expect_ring(&[[1.0, 1.0, -3.0, 1.0, 1.0, -3.0], TURNED_OVER].concat(), &ring);
}

/// F with V turned over: x is 0.0 at U0 and U1 before d below zero negates it, and t is −0.0.
#[test]
fn t_of_minus_zero() {
    let ring = [
        vertex(0, 0.0, 0.0),
        vertex(1, 4.0, 0.0),
        crossing(1, 0, -0.0, 4.0, 0.0),
        crossing(2, 0, -0.0, 0.0, 0.0),
    ];
    expect_ring(&[[0.0, 0.0, 4.0, 0.0, 0.0, -4.0], TURNED_OVER].concat(), &ring);
}

/// x is 4 at U0 and U2 and −2^−58 at U1: their difference rounds to 4.
#[test]
fn t_of_one() {
    let beside = -times_power_of_two(1.0, -60);
    let ring = [
        vertex(0, 1.0, 1.0),
        crossing(0, 0, 1.0, 0.0, 1.0),
        crossing(1, 0, 1.0, 0.0, 1.0),
        vertex(2, 1.0, 2.0),
    ];
    expect_ring(&[[1.0, 1.0, beside, 1.0, 1.0, 2.0], ORDINARY_V].concat(), &ring);
}

/// A zero that is copied keeps its sign.
#[test]
fn minus_zero_in_a_position() {
    let in_v = [vertex(0, -0.0, 0.0), vertex(1, 1.0, -0.0), vertex(2, 0.0, 1.0)];
    expect_ring(&[[-0.0, 0.0, 1.0, -0.0, 0.0, 1.0], ORDINARY_V].concat(), &in_v);
    let in_u = [corner(0, -0.0, -0.0), corner(1, 1.0, -0.0), corner(2, -0.0, 1.0)];
    let v = [-0.0, -0.0, 1.0, -0.0, -0.0, 1.0];
    expect_ring(&[[-8.0, -8.0, 16.0, -8.0, -8.0, 16.0], v].concat(), &in_u);
}

/// U = V, either way round: all its vertices are in V, and V's corners are nowhere.
#[test]
fn vertices_on_corners_are_vertices() {
    let same = [vertex(0, 0.0, 0.0), vertex(1, 4.0, 0.0), vertex(2, 0.0, 4.0)];
    expect_ring(&[ORDINARY_V; 2].concat(), &same);
    expect_ring(&[ORDINARY_V, TURNED_OVER].concat(), &same);
    let turned = [vertex(0, 0.0, 0.0), vertex(1, 0.0, 4.0), vertex(2, 4.0, 0.0)];
    expect_ring(&[TURNED_OVER, ORDINARY_V].concat(), &turned);
}

/// Edge 0 passes through V0, where it crosses line 0 and then line 1, as the pair test of zero has it. V0 is
/// not in U. On edges 1 and 2 t is 36 / 40 at lines 1 and 0, and 16 / 72 at line 2.
#[test]
fn crossings_on_a_corner_are_crossings() {
    let (far, near) = (0.9, 16.0 / 72.0);
    let ring = [
        crossing(0, 0, 0.5, 0.0, 0.0),
        crossing(0, 1, 0.5, 0.0, 0.0),
        crossing(1, 1, far, 9.0 + far * -8.0, 9.0 + far * -10.0),
        crossing(1, 2, near, 1.0 + near * 8.0, -1.0 + near * 10.0),
        crossing(2, 2, near, -1.0 + near * 10.0, 1.0 + near * 8.0),
        crossing(2, 0, far, 9.0 + far * -10.0, 9.0 + far * -8.0),
    ];
    expect_ring(&[[-1.0, 1.0, 1.0, -1.0, 9.0, 9.0], ORDINARY_V].concat(), &ring);
}

/// U0 lies in V, and edge 1 passes through V from −`end` to `end`. With h = 2^−520, x is 4h times the first
/// coordinate, y 4 times the second, and w is 16h − x − y: at U0 4h, 2h and 10h.
fn passing_through(end: f64) -> Vec<f64> {
    let h = times_power_of_two(1.0, -520);
    vec![1.0, 0.5 * h, -end, h, end, h, 0.0, 0.0, 4.0, 0.0, 0.0, 4.0 * h]
}

/// Both crossings of edge 1 are at its middle, as far as f64 can say.
#[test]
fn long_edges() {
    let h = times_power_of_two(1.0, -520);
    let tiny = times_power_of_two(1.0, -1022);
    let ring = [
        vertex(0, 1.0, 0.5 * h),
        crossing(0, 0, tiny, 0.0, 0.5 * h),
        crossing(1, 0, 0.5, 0.0, h),
        crossing(1, 2, 0.5, 0.0, h),
        crossing(2, 2, 2.5 * tiny, 3.5, 0.5 * h),
    ];
    expect_ring(&passing_through(times_power_of_two(1.0, 1022)), &ring);
}

/// Twice as long Q − P overflows on edge 1, and no other corner is handed back either.
#[test]
fn another_corner_overflows() {
    expect_refusal(&passing_through(times_power_of_two(1.0, 1023)), 4);
}

/// U1 and U2 are in V, U0 is below its long edge, and the ring begins at 0.75 of `size`. With h = 2^−600 w is
/// 3.5h times `size` at U1 and U2, and as much below zero at U0.
fn end_to_end(size: f64) -> Vec<f64> {
    let h = times_power_of_two(1.0, -600);
    let (inner, outer) = (1.5 * size, 1.75 * size);
    vec![0.0, -h, inner, h, -inner, h, 0.0, 16.0 * h, -outer, 0.0, outer, 0.0]
}

/// From the first corner to U2 it is 2.25 times the size, which the area overflows at and nothing else.
#[test]
fn the_area_overflows() {
    let size = times_power_of_two(1.0, 1022);
    let h = times_power_of_two(1.0, -600);
    let ring = [
        crossing(0, 2, 0.5, 0.75 * size, 0.0),
        vertex(1, 1.5 * size, h),
        vertex(2, -1.5 * size, h),
        crossing(2, 2, 0.5, -0.75 * size, 0.0),
    ];
    expect_ring(&end_to_end(size), &ring);
    expect_refusal(&end_to_end(2.0 * size), 4);
}

/// No room is lent, so that nothing but the input's length is 1.
#[test]
fn lengths() {
    let values = worked::in_turn()[0].values.repeat(3);
    for length in (0..=36).filter(|length| *length != 12) {
        expect_refusal(&values[..length], 1);
    }
    expect_refusal(&[f64::NAN; 11], 1);
    expect_refusal(&[f64::NAN; 13], 1);
}

/// Each comes before all that stand below it, and 6 comes last.
#[test]
fn refusals_in_turn() {
    let flat = [7.0, 7.0, 8.0, 8.0, 9.0, 9.0];
    let huge = [0.0, 0.0, 1e300, 0.0, 0.0, 1e300];
    let apart = [10.0, 10.0, 11.0, 10.0, 10.0, 11.0];
    let not_finite = [f64::INFINITY, 0.0, 0.0, 0.0, 0.0, 0.0];
    expect_refusal(&[&not_finite[..], &flat, &[0.0]].concat(), 1);
    expect_refusal(&[not_finite, flat].concat(), 2);
    expect_refusal(&[not_finite, huge].concat(), 2);
    expect_refusal(&[flat, huge].concat(), 4);
    expect_refusal(&[huge, flat].concat(), 3);
    expect_refusal(&[flat, flat].concat(), 3);
    expect_refusal(&[huge, apart].concat(), 4);
    expect_refusal(&[flat, apart].concat(), 5);
    expect_refusal(&[apart, ORDINARY_V].concat(), 6);
}

/// Beyond the tip of a needle rounding finds a ring, though the boxes share no point.
#[test]
fn far_boxes_are_no_matter() {
    for (u, v) in BEYOND.into_iter().zip(NEEDLES) {
        let values = [u, v].concat();
        let answer = intersect(&values, &mut [0.0; ROOM]);
        assert_eq!((decide(&values).number, decide(&values).kind), (0, APART));
        assert!(answer.n > 0);
        assert!((0..answer.n as usize).all(|place| corner_at(&values, place).number == 0));
        expect_number(&values, answer.n as usize, 6);
    }
}

/// Corners are where the ring has them, and a pair is refused as its answer is.
#[test]
fn positions_are_those_of_the_ring() {
    let mut random = Random::new(4);
    for _ in 0..20_000 {
        let values = CLASSES[draw(&mut random)].case(&mut random).values;
        let mut room = [0.0; ROOM];
        let answer = intersect(&values, &mut room);
        let n = answer.n as usize;
        for place in places(n, &mut random) {
            let corner = corner_at(&values, place);
            if place < n {
                let position = [room[2 * place], room[2 * place + 1]].map(f64::to_bits);
                assert_eq!((corner.number, [corner.x, corner.y].map(f64::to_bits)), (0, position));
            } else {
                expect_number(&values, place, if answer.number == 0 { 6 } else { answer.number });
            }
        }
    }
}
