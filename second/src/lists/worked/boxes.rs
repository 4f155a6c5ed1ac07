//! Which triangle pairs have boxes that share a point. `V` has the box from (0,0) to (4,4).

use super::{listed, Worked};
use super::{AROUND_E, AT_THE_CORNER, EXAMPLE_LIST, NOTHING, NOTHING_OF_ONE, ONE_TOUCHES, U_OF_A, U_OF_E, V};
use crate::classes::decisions::{BEYOND, NEEDLES};
use crate::files::draft::Triangle;
use crate::footprint::stored::{HELD_BACK, TEST, TRAINING};

/// Their boxes share an edge with V's and no more, and no point of V lies on it but its corners.
const ON_THE_RIGHT: Triangle = [4, 1, 6, 1, 4, 3];
const ON_THE_LEFT: Triangle = [0, 6, -2, 6, -2, 1];
const ABOVE: Triangle = [1, 4, 3, 4, 1, 6];
const BELOW: Triangle = [6, 0, 6, -2, 1, -2];
/// Their boxes share a corner with V's and no more; at the latter two it is one of V's own.
const UPPER_RIGHT: Triangle = [4, 4, 6, 4, 4, 6];
const LOWER_RIGHT: Triangle = [4, 0, 6, 0, 4, -2];
const UPPER_LEFT: Triangle = [0, 4, -2, 4, 0, 6];
/// Test recording 9 and training recording 7.
fn two(list: &str, tested: u32, test: &[Triangle], training: &[Triangle]) -> Worked {
    listed(list, tested, &[(7, TRAINING, training), (9, TEST, test)])
}

fn moved([x0, y0, x1, y1, x2, y2]: Triangle, x: i32, y: i32) -> Triangle {
    [x0 + x, y0 + y, x1 + x, y1 + y, x2 + x, y2 + y]
}

/// Two centimetres wide and high, at this corner.
fn small(x: i32, y: i32) -> Triangle {
    moved([0, 0, 2, 0, 0, 2], x, y)
}

pub fn all() -> Vec<Worked> {
    let all = [sides(), corners(), own_boxes(), sums(), needles(), rows(), ends_of_the_range()];
    all.into_iter().flatten().collect()
}

/// One pair each: a common edge is enough, and a centimetre away there is none.
fn sides() -> Vec<Worked> {
    let mut all = Vec::new();
    for (beside, x, y) in [(ON_THE_RIGHT, 1, 0), (ON_THE_LEFT, -1, 0), (ABOVE, 0, 1), (BELOW, 0, -1)] {
        all.push(two(NOTHING, 1, &[beside], &[V]));
        all.push(two(NOTHING, 0, &[moved(beside, x, y)], &[V]));
    }
    all.push(two(NOTHING, 1, &[V], &[ON_THE_LEFT]));
    all.push(two(NOTHING, 0, &[V], &[moved(ABOVE, 0, 1)]));
    all
}

fn corners() -> Vec<Worked> {
    vec![
        two(NOTHING, 1, &[UPPER_RIGHT], &[V]),
        two(ONE_TOUCHES, 1, &[LOWER_RIGHT], &[V]),
        two(ONE_TOUCHES, 1, &[UPPER_LEFT], &[V]),
        two(NOTHING, 0, &[moved(UPPER_RIGHT, 1, 0)], &[V]),
        two(NOTHING, 0, &[moved(LOWER_RIGHT, 0, -1)], &[V]),
        two(NOTHING, 0, &[moved(AT_THE_CORNER, -1, -1)], &[V]),
    ]
}

/// Recordings whose own boxes have much in common, while their triangles' have little or nothing.
fn own_boxes() -> Vec<Worked> {
    let diagonal =
        |x: i32, y: i32| -> Vec<Triangle> { (0..4).map(|k| small(4 * k + x, 4 * k + y)).collect() };
    let around: Vec<Triangle> = (0..9).filter(|k| *k != 4).map(|k| small(4 * (k % 3), 4 * (k / 3))).collect();
    let bent = |at: i32| [(8, 0), (4, 0), (0, 0), (0, 4), (0, 8)].map(|(x, y)| small(x + at, y + at));
    vec![
        two(NOTHING, 0, &[small(0, 0), small(10, 10)], &[small(10, 0), small(0, 10)]),
        two(NOTHING, 0, &diagonal(0, 0), &diagonal(3, -3)),
        // Each triangle's corner (2,0) is its neighbour's (0,2).
        two(ONE_TOUCHES, 4, &diagonal(0, 0), &diagonal(2, -2)),
        two(NOTHING, 0, &bent(4), &bent(0)),
        two(NOTHING, 0, &[small(4, 4)], &around),
        // Wider, so that its corner (8,4) is that of the next one.
        two(ONE_TOUCHES, 1, &[[4, 4, 8, 4, 4, 6]], &around),
        // Its box has (8,8), (6,8) and (8,6) in common with boxes of three others, but it has no more than
        // the first in common with them.
        two(ONE_TOUCHES, 3, &around, &[[8, 8, 6, 6, 7, 6]]),
        // All within one.
        two(
            "leaks 1\ntest 9 train 7 pairs 5\ntouching 0\nformerly held back 0\n",
            5,
            &bent(0),
            &[[-20, -20, 80, -20, -20, 80]],
        ),
    ]
}

/// All pairs count: after an overlapping one, of recordings that leak, touch or are apart, and of those that
/// were held back.
fn sums() -> Vec<Worked> {
    vec![
        two(EXAMPLE_LIST, 3, &[U_OF_A, ON_THE_RIGHT, ABOVE], &[V]),
        two(EXAMPLE_LIST, 2, &[UPPER_RIGHT, U_OF_A], &[V]),
        two(
            "leaks 1\ntest 9 train 7 pairs 3\ntouching 0\nformerly held back 0\n",
            3,
            &[U_OF_A, U_OF_E],
            &[V, AROUND_E, V],
        ),
        // 1 with 3, 5 and 4: 2, 4 and 1; then 2 with them: 1, 1 and 0.
        listed(
            "leaks 3\ntest 1 train 3 pairs 1\ntest 1 train 5 pairs 2\ntest 1 train 4 pairs 1\ntouching 0\n\
             formerly held back 1\n",
            9,
            &[
                (1, TEST, &[V, ON_THE_RIGHT]),
                (3, TRAINING, &[V]),
                (5, HELD_BACK, &[V, ON_THE_RIGHT]),
                (2, TEST, &[UPPER_RIGHT]),
                (4, TRAINING, &[U_OF_A, AROUND_E]),
            ],
        ),
        listed(
            NOTHING_OF_ONE,
            1,
            &[(5, HELD_BACK, &[V]), (9, TEST, &[ON_THE_RIGHT]), (7, TRAINING, &[U_OF_E])],
        ),
        listed(NOTHING_OF_ONE, 2, &[(7, TRAINING, &[V]), (5, HELD_BACK, &[V, U_OF_A]), (9, TEST, &[ABOVE])]),
    ]
}

/// Apart, whichever of them is U, though the triangle rules find a ring with the needle as V.
fn needles() -> Vec<Worked> {
    let stored = |triangle: [f64; 6]| triangle.map(|value| value as i32);
    let mut all = Vec::new();
    for (beyond, needle) in BEYOND.map(stored).iter().zip(NEEDLES.map(stored)) {
        all.push(two(NOTHING, 0, &[*beyond], &[needle]));
        all.push(two(NOTHING, 0, &[needle], &[*beyond]));
    }
    all
}

/// Rows of triangles of which one alone lies where the other recording is: at an end, or at an end of eight
/// or sixteen of them.
fn rows() -> Vec<Worked> {
    let row = |y: i32, count: i32, place: usize, one: Triangle| {
        let mut row: Vec<Triangle> = (0..count).map(|k| small(100 + 3 * k, y)).collect();
        row[place] = one;
        row
    };
    let test = |count: i32, place: usize, one: Triangle| row(100, count, place, one);
    let training = |count: i32, place: usize, one: Triangle| row(-100, count, place, one);
    vec![
        two(EXAMPLE_LIST, 1, &test(3, 0, U_OF_A), &[V]),
        two(EXAMPLE_LIST, 1, &[V], &training(3, 1, U_OF_A)),
        two(ONE_TOUCHES, 1, &test(3, 2, LOWER_RIGHT), &training(2, 0, V)),
        two(NOTHING, 1, &test(8, 7, ON_THE_RIGHT), &training(2, 1, V)),
        two(NOTHING, 1, &[V], &training(9, 8, ON_THE_LEFT)),
        two(EXAMPLE_LIST, 1, &test(17, 16, U_OF_A), &[V]),
        two(NOTHING, 1, &[V], &training(17, 15, UPPER_RIGHT)),
        two(NOTHING, 1, &test(33, 32, ABOVE), &[V]),
    ]
}

/// At the end of the range there is no room for more than an edge.
fn ends_of_the_range() -> Vec<Worked> {
    const END: i32 = 1_000_000;
    let wide = |end: i32| [-END, -END, end, -END, -END, end];
    let last = [END, 0, END, 5, END - 1, 3];
    vec![two(NOTHING, 1, &[last], &[wide(END - 1)]), two(NOTHING, 0, &[last], &[wide(END - 2)])]
}
