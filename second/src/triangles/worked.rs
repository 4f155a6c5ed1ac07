//! The twelve cases that document 01 works by hand, with its values.

use super::{intersect, intersect_traced};
use crate::coverage::Coverage;

const ORDINARY_V: [f64; 6] = [0.0, 0.0, 4.0, 0.0, 0.0, 4.0];
const U_OF_A: [f64; 6] = [1.0, 1.0, 2.0, 1.0, 1.0, 2.0];
const FLAT: [f64; 6] = [0.0, 0.0, 1.0, 1.0, 2.0, 2.0];
const UNTOUCHED: f64 = -77.0;

fn values(u: [f64; 6], v: [f64; 6]) -> Vec<f64> {
    [u, v].concat()
}

/// An accepted answer: the ring, the area, and the room behind the ring as it was.
fn expect_ring(u: [f64; 6], v: [f64; 6], ring: &[(f64, f64)], area: f64, flags: [[bool; 3]; 3]) {
    let mut room = [UNTOUCHED; 14];
    let answer = intersect(&values(u, v), &mut room);
    assert_eq!((answer.number, answer.n as usize), (0, ring.len()));
    assert_eq!(answer.area.to_bits(), area.to_bits());
    assert_eq!([answer.u_in_v, answer.v_in_u, answer.neighbour], flags);
    let mut expected = [UNTOUCHED; 14];
    for (k, corner) in ring.iter().enumerate() {
        expected[2 * k] = corner.0;
        expected[2 * k + 1] = corner.1;
    }
    assert_eq!(room.map(f64::to_bits), expected.map(f64::to_bits));
}

fn expect_refusal(values: &[f64], number: u32) {
    let mut room = [UNTOUCHED; 12];
    let answer = intersect(values, &mut room);
    assert_eq!((answer.number, answer.n, answer.area.to_bits()), (number, 0, 0));
    assert_eq!([answer.u_in_v, answer.v_in_u, answer.neighbour], [NONE; 3]);
    assert_eq!(room, [UNTOUCHED; 12]);
}

const NONE: [bool; 3] = [false; 3];
const ALL: [bool; 3] = [true; 3];

#[test]
fn a_u_inside_v() {
    expect_ring(U_OF_A, ORDINARY_V, &[(1.0, 1.0), (2.0, 1.0), (1.0, 2.0)], 0.5, [ALL, NONE, NONE]);
}

#[test]
fn b_v_inside_u_without_a_pair_test() {
    let u = [0.0, 0.0, 8.0, 0.0, 0.0, 8.0];
    expect_ring(u, U_OF_A, &[(1.0, 1.0), (2.0, 1.0), (1.0, 2.0)], 0.5, [NONE, ALL, ALL]);
    let mut coverage = Coverage::default();
    intersect_traced(&values(u, U_OF_A), &mut [0.0; 12], &mut coverage);
    assert_eq!(coverage.pair_tests_computed(), 0);
}

#[test]
fn c_six_corners() {
    let v = [0.0, 0.0, 8.0, 0.0, 0.0, 8.0];
    let u = [6.0, 6.0, -2.0, 6.0, 6.0, -2.0];
    let ring = [(2.0, 6.0), (0.0, 6.0), (0.0, 4.0), (4.0, 0.0), (6.0, 0.0), (6.0, 2.0)];
    expect_ring(u, v, &ring, 20.0, [NONE, NONE, ALL]);
}

#[test]
fn d_one_corner_of_v() {
    let u = [1.0, 1.0, -3.0, 1.0, 1.0, -3.0];
    let ring = [(1.0, 1.0), (0.0, 1.0), (0.0, 0.0), (1.0, 0.0)];
    let v0_only = [true, false, false];
    expect_ring(u, ORDINARY_V, &ring, 1.0, [v0_only, v0_only, [true, true, false]]);
}

#[test]
fn e_apart() {
    expect_ring([10.0, 10.0, 11.0, 10.0, 10.0, 11.0], ORDINARY_V, &[], 0.0, [NONE; 3]);
}

/// U0 and U1 lie on line 1, so they are in V; the edges to U2 leave and enter by that line.
#[test]
fn f_shared_edge() {
    let ring = [(0.0, 0.0), (4.0, 0.0), (4.0, 0.0), (0.0, 0.0)];
    let flags = [[true, true, false], NONE, [false, true, false]];
    expect_ring([0.0, 0.0, 4.0, 0.0, 0.0, -4.0], ORDINARY_V, &ring, 0.0, flags);
}

#[test]
fn g_two_corners_of_v() {
    let ring = [(0.0, 2.0), (2.0, 0.0), (4.0, 0.0), (0.0, 4.0)];
    let flags = [NONE, [false, true, true], ALL];
    expect_ring([-3.0, 5.0, 5.0, -3.0, 9.0, 9.0], ORDINARY_V, &ring, 6.0, flags);
}

#[test]
fn h_v_turned_over() {
    let v = [0.0, 0.0, 0.0, 4.0, 4.0, 0.0];
    expect_ring(U_OF_A, v, &[(1.0, 1.0), (2.0, 1.0), (1.0, 2.0)], 0.5, [ALL, NONE, NONE]);
}

#[test]
fn i_flat_v_and_j_flat_u() {
    expect_refusal(&values(U_OF_A, FLAT), 3);
    expect_refusal(&values(FLAT, ORDINARY_V), 5);
}

#[test]
fn k_nan_in_any_place() {
    for v in [ORDINARY_V, FLAT] {
        for place in 0..12 {
            let mut with_nan = values(U_OF_A, v);
            with_nan[place] = f64::NAN;
            expect_refusal(&with_nan, 2);
        }
    }
}

#[test]
fn l_overflow_on_the_way_to_d() {
    expect_refusal(&values(U_OF_A, [0.0, 0.0, 1e300, 0.0, 0.0, 1e300]), 4);
}

#[test]
fn lengths() {
    for length in 0..=30 {
        for room_length in 0..=30 {
            let input = values(U_OF_A, ORDINARY_V);
            let input: Vec<f64> = input.iter().cycle().take(length).copied().collect();
            let mut room = vec![UNTOUCHED; room_length];
            let answer = intersect(&input, &mut room);
            let good = length == 12 && room_length >= 12;
            assert_eq!(answer.number, if good { 0 } else { 1 });
            assert_eq!(room.iter().all(|value| *value == UNTOUCHED), !good);
        }
    }
}
