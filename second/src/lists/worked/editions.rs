//! Tests of the second edition. The test that most of them have is 20,000 large, so that an overlap of 200 is a
//! hundredth of it.

use super::{listed, Worked, EXAMPLE_LIST, NOTHING, NOTHING_OF_ONE, ONE_LEAKS_OF_ONE, ONE_TOUCHES};
use crate::files::draft::Triangle;
use crate::files::editions::with_editions;
use crate::footprint::stored::{HELD_BACK, SECOND_EDITION, TEST, TRAINING};

const OWN: Triangle = [0, 0, 200, 0, 0, 200];
/// The other way round.
const TURNED: Triangle = [0, 0, 0, 200, 200, 0];
/// Within it: 50, 120, 199.5, 200 and 200.5.
const SMALL: Triangle = [10, 10, 20, 10, 10, 20];
const SIX_TENTHS: Triangle = [20, 20, 40, 20, 20, 32];
const UNDER: Triangle = [10, 10, 30, 11, 11, 30];
const JUST: Triangle = [10, 10, 30, 10, 10, 30];
const OVER: Triangle = [10, 10, 30, 11, 9, 30];
/// Along its lowest edge; at (0,0); and past its longest edge, where the boxes share a part.
const BELOW: Triangle = [0, 0, 200, 0, 50, -50];
const AT_THE_CORNER: Triangle = [0, 0, -40, 0, 0, -40];
const PAST: Triangle = [180, 180, 220, 180, 180, 220];
/// Where nothing else is, and 20,000 large as well.
const ELSEWHERE: Triangle = [1_000, 1_000, 1_200, 1_000, 1_000, 1_200];
const ELSEWHERE_TURNED: Triangle = [1_000, 1_000, 1_000, 1_200, 1_200, 1_000];

type Recordings<'a> = &'a [(u32, u8, &'a [Triangle])];

/// All tests go by the second edition.
fn second(list: &str, tested: u32, recordings: Recordings) -> Worked {
    of_editions(list, tested, recordings, &[SECOND_EDITION; 64])
}

/// The tests go by these, in the table's order.
fn of_editions(list: &str, tested: u32, recordings: Recordings, editions: &[u8]) -> Worked {
    let mut editions = editions.iter().copied();
    let worked = listed(list, tested, recordings);
    let file = with_editions(&worked.file, |_| editions.next().expect("every test has its edition"));
    Worked { file, ..worked }
}

/// Test recording 9 and training recording 7.
fn two(list: &str, tested: u32, test: &[Triangle], training: &[Triangle]) -> Worked {
    second(list, tested, &[(7, TRAINING, training), (9, TEST, test)])
}

fn pairs(count: u32) -> String {
    format!("leaks 1\ntest 9 train 7 pairs {count}\ntouching 0\nformerly held back 0\n")
}

pub fn all() -> Vec<Worked> {
    let all = [at_the_limit(), sums(), own_areas(), others(), both_editions(), held_back(), rounded()];
    all.into_iter().flatten().collect()
}

/// A hundredth is no leak yet.
fn at_the_limit() -> Vec<Worked> {
    let first =
        |list: &str, training: Triangle| listed(list, 1, &[(7, TRAINING, &[training]), (9, TEST, &[OWN])]);
    vec![
        two(NOTHING, 1, &[OWN], &[UNDER]),
        two(NOTHING, 1, &[OWN], &[JUST]),
        two(EXAMPLE_LIST, 1, &[OWN], &[OVER]),
        two(NOTHING, 1, &[TURNED], &[JUST]),
        two(EXAMPLE_LIST, 1, &[TURNED], &[OVER]),
        two(EXAMPLE_LIST, 1, &[OWN], &[OWN]),
        two(EXAMPLE_LIST, 1, &[SMALL], &[OWN]),
        first(EXAMPLE_LIST, UNDER),
        first(EXAMPLE_LIST, JUST),
        first(EXAMPLE_LIST, SMALL),
    ]
}

/// One sum for one test and one training recording: 240 of one recording are a leak, and twice 120 of two are
/// none. N counts them all, also behind those that make the leak.
fn sums() -> Vec<Worked> {
    vec![
        two(&pairs(2), 2, &[OWN], &[SIX_TENTHS, SIX_TENTHS]),
        second(NOTHING, 2, &[(7, TRAINING, &[SIX_TENTHS]), (9, TEST, &[OWN]), (8, TRAINING, &[SIX_TENTHS])]),
        second(NOTHING, 2, &[(7, TRAINING, &[SIX_TENTHS]), (9, TEST, &[OWN]), (8, TEST, &[OWN])]),
        two(NOTHING, 4, &[OWN], &[SMALL; 4]),
        two(&pairs(5), 5, &[OWN], &[SMALL; 5]),
        two(&pairs(3), 3, &[OWN], &[OVER, SMALL, SMALL]),
        two(&pairs(3), 3, &[OWN], &[SMALL, SMALL, OVER]),
        // 200 and 200.5 twice each, of 40,000.
        two(NOTHING, 2, &[OWN, OWN], &[JUST]),
        two(&pairs(2), 2, &[OWN, OWN], &[OVER]),
        // 200.5, and 400.5, of 40,000: the other triangle is far away.
        two(NOTHING, 1, &[OWN, ELSEWHERE], &[OVER]),
        two(&pairs(2), 2, &[OWN, ELSEWHERE], &[OVER, JUST]),
        two(&pairs(2), 2, &[ELSEWHERE, OWN], &[JUST, OVER]),
    ]
}

/// Of the test alone, all its triangles, whichever way round they are.
fn own_areas() -> Vec<Worked> {
    vec![
        two(NOTHING, 2, &[OWN, TURNED], &[JUST]),
        two(NOTHING, 2, &[TURNED, OWN], &[UNDER]),
        two(&pairs(2), 2, &[TURNED, OWN], &[OVER]),
        two(NOTHING, 1, &[OWN, ELSEWHERE_TURNED], &[OVER]),
        two(NOTHING, 1, &[ELSEWHERE_TURNED, OWN], &[OVER]),
        // The training is larger than the test, and leaks nevertheless.
        two(EXAMPLE_LIST, 1, &[OVER], &[OWN, ELSEWHERE]),
        two(EXAMPLE_LIST, 1, &[SMALL], &[OWN, ELSEWHERE, ELSEWHERE]),
        // 4 of 20,000.
        two(NOTHING, 1, &[OWN], &[[10, 10, 14, 10, 10, 12]]),
    ]
}

/// What touches is counted as it is by the first edition, and an overlap that is no leak is not touching.
fn others() -> Vec<Worked> {
    vec![
        two(ONE_TOUCHES, 1, &[OWN], &[BELOW]),
        two(ONE_TOUCHES, 1, &[OWN], &[AT_THE_CORNER]),
        two(NOTHING, 1, &[OWN], &[PAST]),
        two(NOTHING, 2, &[OWN], &[BELOW, SMALL]),
        two(NOTHING, 2, &[OWN], &[SMALL, BELOW]),
        two(NOTHING, 3, &[OWN], &[AT_THE_CORNER, JUST, PAST]),
        two(EXAMPLE_LIST, 2, &[OWN], &[BELOW, OVER]),
        second(ONE_TOUCHES, 2, &[(7, TRAINING, &[SMALL]), (8, TRAINING, &[BELOW]), (9, TEST, &[OWN])]),
        second(
            "leaks 1\ntest 9 train 6 pairs 1\ntouching 1\nformerly held back 0\n",
            5,
            &[
                (9, TEST, &[OWN]),
                (8, TRAINING, &[JUST]),
                (7, TRAINING, &[BELOW]),
                (6, TRAINING, &[OVER]),
                (5, TRAINING, &[SMALL, BELOW]),
            ],
        ),
    ]
}

/// Each test by its own.
fn both_editions() -> Vec<Worked> {
    let of = |list: &str, editions: [u8; 3]| {
        let recordings: Recordings =
            &[(1, TEST, &[OWN]), (7, TRAINING, &[JUST]), (2, TEST, &[OWN]), (3, TEST, &[OWN])];
        of_editions(list, 3, recordings, &editions)
    };
    vec![
        of("leaks 1\ntest 1 train 7 pairs 1\ntouching 0\nformerly held back 0\n", [0, 1, 1]),
        of("leaks 1\ntest 2 train 7 pairs 1\ntouching 0\nformerly held back 0\n", [1, 0, 1]),
        of("leaks 1\ntest 3 train 7 pairs 1\ntouching 0\nformerly held back 0\n", [1, 1, 0]),
        of(
            "leaks 2\ntest 1 train 7 pairs 1\ntest 3 train 7 pairs 1\ntouching 0\nformerly held back 0\n",
            [0, 1, 0],
        ),
        of(NOTHING, [1, 1, 1]),
    ]
}

/// What is stored as held back is training here too.
fn held_back() -> Vec<Worked> {
    vec![
        second(NOTHING_OF_ONE, 1, &[(7, HELD_BACK, &[JUST]), (9, TEST, &[OWN])]),
        second(ONE_LEAKS_OF_ONE, 1, &[(7, HELD_BACK, &[OVER]), (9, TEST, &[OWN])]),
        second(
            ONE_LEAKS_OF_ONE,
            2,
            &[(9, TEST, &[OWN]), (8, HELD_BACK, &[SIX_TENTHS]), (7, TRAINING, &[OVER])],
        ),
        second(
            "leaks 0\ntouching 1\nformerly held back 2\n",
            3,
            &[(1, HELD_BACK, &[SMALL]), (9, TEST, &[OWN]), (2, HELD_BACK, &[BELOW]), (3, TRAINING, &[JUST])],
        ),
    ]
}

/// Each of these has an edge from (0,0) to (0,1), or some centimetres higher up, and lies in the training triangle
/// of its name up to a line through (0,1), which its edge back to (0,0) crosses at a t of 0.2, 0.4 and 0.6 from
/// there. So the ring is (0,0), (0,1), (0,1) and a point with an x of t, and the area is half of t as it is
/// rounded: 0.1, 0.2 and 0.3. How high up it lies does not matter, as the y of that point is multiplied by zero.
const TENTH: Triangle = [0, 0, 0, 1, 1, 4];
const OVER_TENTH: Triangle = [0, 0, 1, 0, 0, 1];
const FIFTH: Triangle = [0, 10, 0, 11, 1, 12];
const OVER_FIFTH: Triangle = [0, 10, 2, 10, 0, 11];
const THREE_TENTHS: Triangle = [0, 21, 0, 22, 1, 22];
const OVER_THREE_TENTHS: Triangle = [0, 20, 3, 20, 0, 22];
/// Shares three tenths with what shares a fifth with the other: its edge from (−3,10) to (3,12) is crossed at a t
/// of 0.6.
const OVER_FIFTH_TOO: Triangle = [-3, 10, 3, 12, 3, 9];
/// The same as the first with a t of 0.2 and an x of 0.2 · 11, which is 2.2: an area of 1.1.
const ELEVEN_TENTHS: Triangle = [0, 0, 0, 1, 11, 4];
const OVER_ELEVEN_TENTHS: Triangle = [0, 0, 11, 0, 0, 1];

/// Where nothing else is: a triangle of which twice the area is the product of the two.
fn rest(width: i32, height: i32) -> Triangle {
    [100, 100, 100 + width, 100, 100, 100 + height]
}

/// What is rounded decides, and nothing else.
fn rounded() -> Vec<Worked> {
    let over = [OVER_TENTH, OVER_FIFTH, OVER_THREE_TENTHS];
    // 1 + 1 + 1 + 117 are 120, and 60 is half of it.
    let in_order = |list: &str, order: [Triangle; 3]| {
        let test = [&order[..], &[rest(9, 13)]].concat();
        two(list, 3, &test, &over)
    };
    // 1 + 1 + 118: the same with one triangle less.
    let in_rows = |list: &str, test: [Triangle; 2], training: [Triangle; 3]| {
        two(list, 3, &[&test[..], &[rest(2, 59)]].concat(), &training)
    };
    vec![
        // 0.1 is stored as a little more, but 100 times that is rounded to 10, and half of 1 + 19 is 10.
        two(NOTHING, 1, &[TENTH, rest(1, 19)], &[OVER_TENTH]),
        two(EXAMPLE_LIST, 1, &[TENTH, rest(1, 18)], &[OVER_TENTH]),
        // 100 · 1.1 is rounded to 110 + 2^-46, and half of 11 + 209 is 110. But 110 / 100 is 1.1.
        two(EXAMPLE_LIST, 1, &[ELEVEN_TENTHS, rest(11, 19)], &[OVER_ELEVEN_TENTHS]),
        two(NOTHING, 1, &[ELEVEN_TENTHS, rest(210, 1)], &[OVER_ELEVEN_TENTHS]),
        // (0.1 + 0.2) + 0.3 is 0.6 + 2^-53, and 100 times that is above 60; (0.3 + 0.2) + 0.1 is 0.6.
        in_order(&pairs(3), [TENTH, FIFTH, THREE_TENTHS]),
        in_order(NOTHING, [THREE_TENTHS, FIFTH, TENTH]),
        in_order(NOTHING, [FIFTH, THREE_TENTHS, TENTH]),
        // The same with 0.2 and 0.3 of one test triangle: 0.1 + (0.2 + 0.3) would be 0.6.
        in_rows(&pairs(3), [TENTH, FIFTH], [OVER_TENTH, OVER_FIFTH, OVER_FIFTH_TOO]),
        in_rows(&pairs(3), [TENTH, FIFTH], [OVER_FIFTH_TOO, OVER_FIFTH, OVER_TENTH]),
        in_rows(NOTHING, [FIFTH, TENTH], [OVER_TENTH, OVER_FIFTH, OVER_FIFTH_TOO]),
    ]
}
