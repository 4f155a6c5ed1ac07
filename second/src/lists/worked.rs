//! Files worked by hand, with the lists that the rules give them, and how many triangle pairs of theirs are
//! given to the triangle rules.

mod boxes;
mod editions;
mod held_back;

use crate::files::draft::{Draft, Triangle};
use crate::files::worked::{EXAMPLE, SHORTEST, THREE};
use crate::footprint::stored::{HELD_BACK, TEST, TRAINING};

pub struct Worked {
    pub file: Vec<u8>,
    pub list: String,
    pub tested: u32,
}

/// The whole list of `EXAMPLE`.
pub const EXAMPLE_LIST: &str = "leaks 1\ntest 9 train 7 pairs 1\ntouching 0\nformerly held back 0\n";
/// Where nothing overlaps or touches, and where two recordings touch.
pub const NOTHING: &str = "leaks 0\ntouching 0\nformerly held back 0\n";
const ONE_TOUCHES: &str = "leaks 0\ntouching 1\nformerly held back 0\n";
/// The same, and one recording is stored as held back.
const ONE_LEAKS_OF_ONE: &str = "leaks 1\ntest 9 train 7 pairs 1\ntouching 0\nformerly held back 1\n";
const NOTHING_OF_ONE: &str = "leaks 0\ntouching 0\nformerly held back 1\n";
const ONE_TOUCHES_OF_ONE: &str = "leaks 0\ntouching 1\nformerly held back 1\n";

/// V of most of the worked cases, and the U of some.
pub const V: Triangle = [0, 0, 4, 0, 0, 4];
const U_OF_A: Triangle = [1, 1, 2, 1, 1, 2];
pub const U_OF_D: Triangle = [1, 1, -3, 1, 1, -3];
const U_OF_E: Triangle = [10, 10, 11, 10, 10, 11];
/// Shares V's edge 1 from end to end.
const U_OF_F: Triangle = [0, 0, 4, 0, 0, -4];
/// With U of D's edge from (1,1) to (1,−3), and on its other side.
const BESIDE_D: Triangle = [1, 1, 1, -3, 5, -1];
/// Shares the middle of that edge. As a U its first two vertices are in V, with a y of zero; where its other
/// edges cross line 1, t is zero, so that the ring is (1,0), (3,0), (3,0), (1,0).
const WITHIN_THE_EDGE: Triangle = [1, 0, 3, 0, 2, -2];
/// Its edge reaches beyond V's at both ends. As a U it crosses line 0 at t = 24/32, which is (0,0), and
/// line 2 at t = 24/32, which is (4,0), and leaves its other crossings outside; V1 and V0 are in it and
/// close the ring (0,0), (4,0), (4,0), (0,0).
const BEYOND_THE_EDGE: Triangle = [-2, 0, 6, 0, 1, -3];
/// Shares V0. As a U its first vertex is in V, and the crossings beside it have a t of zero: all that the
/// ring has is at (0,0).
const AT_THE_CORNER: Triangle = [0, 0, -4, 0, 0, -4];
/// Around U of E, and apart from the other ones.
const AROUND_E: Triangle = [8, 8, 20, 8, 8, 20];
/// As a U it passes V's corner by: on its edge from (1,−1) to (−1,1) the test of lines 0 and 1 is
/// 4·4 − (−4)·(−4), which is zero, and as their signs differ line 0 is met first, on the wrong side of
/// line 1. As a V it has U's vertex (0,0) on its edge, and so in it, and nothing else.
const PAST_THE_CORNER: Triangle = [1, -1, -1, 1, -1, -1];
/// The one's corner (0,1) lies on the other's edge from (0,−1) to (0,3). With the other as U, the test of
/// lines 0 and 2 on that edge is 8·4 − (−8)·(−4), a zero again, and both crossings lie outside.
const PASSED: Triangle = [4, 1, 2, -1, 0, 1];
const PASSING: Triangle = [0, -1, -1, 0, 0, 3];
/// On the line through (−1189,−975) in the direction of (46,13) the one has corners at −273 and 0 times
/// that, the other at −253 and −115 times, and they lie on both sides of it. With the longer one as U, the
/// crossing at (−6479,−2470) has a t of 158/273, which is rounded, and an x of −6479 + 2^−40. With c_0 at
/// (−12827,−4264) the area's only term that is not zero is (6348 + 2^−40)·1794 − 1794·6348: 2^−29, as the
/// product is rounded to a multiple of that. With the shorter one as U, both of its corners are in V with a
/// parameter of zero, and the crossings beside them have a t of zero: no area.
const LONGER: Triangle = [458, -958, -13747, -4524, -1189, -975];
const SHORTER: Triangle = [-6479, -2470, -805, -156, -12827, -4264];

/// Id, set and triangles of each recording.
pub fn file_of(recordings: &[(u32, u8, &[Triangle])]) -> Vec<u8> {
    let ids: Vec<u32> = recordings.iter().map(|recording| recording.0).collect();
    let sets: Vec<u8> = recordings.iter().map(|recording| recording.1).collect();
    let counts: Vec<u16> = recordings.iter().map(|recording| recording.2.len() as u16).collect();
    let triangles = recordings.iter().flat_map(|recording| recording.2).copied().collect();
    Draft::of(&ids, &counts, &sets, triangles).bytes()
}

fn worked(list: &str, tested: u32, file: &[u8]) -> Worked {
    Worked { file: file.to_vec(), list: list.to_string(), tested }
}

fn listed(list: &str, tested: u32, recordings: &[(u32, u8, &[Triangle])]) -> Worked {
    worked(list, tested, &file_of(recordings))
}

/// None of them longer than 2,000 bytes, nor any of the lists longer than 1,000.
pub fn all() -> Vec<Worked> {
    let all = [nothing(), in_order(), touching(), both_kinds(), decisions(), numbers()];
    all.into_iter().flatten().chain(held_back::all()).chain(editions::all()).chain(boxes::all()).collect()
}

fn nothing() -> Vec<Worked> {
    vec![
        worked(NOTHING, 0, &SHORTEST),
        listed(NOTHING, 0, &[(7, TRAINING, &[V]), (9, TEST, &[U_OF_E])]),
        listed(NOTHING, 0, &[(7, TRAINING, &[V, U_OF_D])]),
        listed(NOTHING, 0, &[(7, TEST, &[V]), (9, TEST, &[U_OF_D])]),
        listed(NOTHING, 0, &[(7, TRAINING, &[V]), (9, TRAINING, &[U_OF_D])]),
    ]
}

/// The table's order, not that of the ids; each test recording with all the training ones.
fn in_order() -> Vec<Worked> {
    let two_by_two = "leaks 4\n\
        test 5 train 3 pairs 2\ntest 5 train 1 pairs 2\ntest 2 train 3 pairs 1\ntest 2 train 1 pairs 2\n\
        touching 0\nformerly held back 0\n";
    vec![
        worked(EXAMPLE_LIST, 1, &EXAMPLE),
        listed(
            two_by_two,
            7,
            &[
                (5, TEST, &[U_OF_A, U_OF_D]),
                (3, TRAINING, &[V]),
                (2, TEST, &[U_OF_E, U_OF_A]),
                (1, TRAINING, &[AROUND_E, V]),
            ],
        ),
        listed(
            "leaks 2\ntest 5 train 3 pairs 2\ntest 2 train 8 pairs 1\ntouching 0\nformerly held back 0\n",
            3,
            &[
                (5, TEST, &[U_OF_A, U_OF_D]),
                (2, TEST, &[U_OF_E]),
                (3, TRAINING, &[V]),
                (8, TRAINING, &[AROUND_E]),
            ],
        ),
        six_by_six(),
    ]
}

/// Of the first test recording two triangles overlap, of the second one, and so on by turns.
fn six_by_six() -> Worked {
    let ids = |k: u32| [70 - 11 * k, 100 + k];
    let tests: [&[Triangle]; 2] = [&[U_OF_A, U_OF_D], &[U_OF_E, U_OF_A]];
    let mut recordings: Vec<(u32, u8, &[Triangle])> = Vec::new();
    let mut list = "leaks 36\n".to_string();
    for k in 0..6 {
        recordings.push((ids(k)[0], TEST, tests[k as usize % 2]));
        recordings.push((ids(k)[1], TRAINING, &[V]));
        for other in 0..6 {
            list += &format!("test {} train {} pairs {}\n", ids(k)[0], ids(other)[1], 2 - k % 2);
        }
    }
    list += "touching 0\nformerly held back 0\n";
    listed(&list, 3 * 6 * 2 + 3 * 6, &recordings)
}

/// Neighbours, which are no leak, and how they are counted: recordings by pairs, however many triangles
/// touch.
fn touching() -> Vec<Worked> {
    let neighbours = [U_OF_F, WITHIN_THE_EDGE, BEYOND_THE_EDGE, AT_THE_CORNER];
    let mut all: Vec<Worked> = Vec::new();
    for neighbour in neighbours {
        all.push(listed(ONE_TOUCHES, 1, &[(0, TEST, &[neighbour]), (1, TRAINING, &[V])]));
        all.push(listed(ONE_TOUCHES, 1, &[(0, TRAINING, &[neighbour]), (1, TEST, &[V])]));
    }
    all.extend([
        listed(ONE_TOUCHES, 12, &[(7, TRAINING, &[V; 3]), (9, TEST, &neighbours)]),
        listed(ONE_TOUCHES, 2, &[(7, TRAINING, &[AROUND_E, V]), (9, TEST, &[PAST_THE_CORNER, U_OF_F])]),
        listed(
            "leaks 0\ntouching 2\nformerly held back 0\n",
            2,
            &[
                (7, TRAINING, &[V]),
                (8, TRAINING, &[AROUND_E]),
                (9, TEST, &[U_OF_F]),
                (1, TEST, &[AT_THE_CORNER]),
            ],
        ),
        four_by_four(),
    ]);
    all
}

/// A neighbour each with V in four recordings; one of those is stored as held back, in between.
fn four_by_four() -> Worked {
    listed(
        "leaks 0\ntouching 16\nformerly held back 1\n",
        5 * 5,
        &[
            (1, TEST, &[U_OF_F]),
            (2, TRAINING, &[V]),
            (3, TEST, &[WITHIN_THE_EDGE, PAST_THE_CORNER]),
            (4, TRAINING, &[V, V]),
            (5, HELD_BACK, &[V]),
            (6, TEST, &[AT_THE_CORNER]),
            (7, TRAINING, &[AROUND_E, V]),
            (8, TEST, &[BEYOND_THE_EDGE]),
        ],
    )
}

/// Where one triangle pair overlaps, the others no longer matter, whichever come first. Other recordings of
/// the same list may touch.
fn both_kinds() -> Vec<Worked> {
    vec![
        // One test recording overlaps a training recording and only touches two others.
        listed(
            "leaks 1\ntest 9 train 7 pairs 1\ntouching 2\nformerly held back 0\n",
            3,
            &[
                (9, TEST, &[U_OF_D]),
                (7, TRAINING, &[V]),
                (3, TRAINING, &[BESIDE_D]),
                (5, TRAINING, &[BESIDE_D]),
            ],
        ),
        listed(EXAMPLE_LIST, 2, &[(7, TRAINING, &[V]), (9, TEST, &[U_OF_F, U_OF_D])]),
        listed(EXAMPLE_LIST, 2, &[(7, TRAINING, &[V]), (9, TEST, &[U_OF_D, U_OF_F])]),
        listed(EXAMPLE_LIST, 3, &[(9, TEST, &[AT_THE_CORNER, U_OF_E, U_OF_F, U_OF_A]), (7, TRAINING, &[V])]),
        listed(
            "leaks 2\ntest 9 train 7 pairs 1\ntest 3 train 8 pairs 1\ntouching 2\nformerly held back 0\n",
            5,
            &[
                (5, TEST, &[U_OF_F]),
                (7, TRAINING, &[V]),
                (9, TEST, &[U_OF_F, U_OF_D]),
                (8, TRAINING, &[AROUND_E]),
                (3, TEST, &[U_OF_E, AT_THE_CORNER]),
            ],
        ),
    ]
}

/// What is computed decides, and so does which of the two is U.
fn decisions() -> Vec<Worked> {
    vec![
        listed(NOTHING, 1, &[(7, TRAINING, &[V]), (9, TEST, &[PAST_THE_CORNER])]),
        listed(ONE_TOUCHES, 1, &[(7, TEST, &[V]), (9, TRAINING, &[PAST_THE_CORNER])]),
        listed(NOTHING, 1, &[(7, TRAINING, &[PASSED]), (9, TEST, &[PASSING])]),
        listed(ONE_TOUCHES, 1, &[(7, TEST, &[PASSED]), (9, TRAINING, &[PASSING])]),
        listed(EXAMPLE_LIST, 1, &[(7, TRAINING, &[SHORTER]), (9, TEST, &[LONGER])]),
        listed(ONE_TOUCHES, 1, &[(7, TEST, &[SHORTER]), (9, TRAINING, &[LONGER])]),
    ]
}

fn numbers() -> Vec<Worked> {
    vec![
        listed(
            "leaks 1\ntest 4294967295 train 4294967294 pairs 1\ntouching 0\nformerly held back 0\n",
            1,
            &[(u32::MAX, TEST, &[U_OF_A]), (u32::MAX - 1, TRAINING, &[V])],
        ),
        listed(
            "leaks 1\ntest 0 train 1 pairs 12\ntouching 0\nformerly held back 0\n",
            12,
            &[(1, TRAINING, &[V; 4]), (0, TEST, &[U_OF_D; 3])],
        ),
        listed(
            "leaks 1\ntest 2147483648 train 2147483647 pairs 100\ntouching 0\nformerly held back 0\n",
            100,
            &[(1 << 31, TEST, &[U_OF_A; 4]), ((1 << 31) - 1, TRAINING, &[V; 25])],
        ),
        // A thin triangle along the diagonal, from corner to corner of the range: from x = 0.5 to x = 2.25 it
        // lies within recording 0, which is stored as held back, and it is 2.5e-7 high there.
        worked(
            "leaks 2\ntest 5 train 0 pairs 1\ntest 5 train 4294967295 pairs 2\ntouching 0\n\
             formerly held back 1\n",
            3,
            &THREE,
        ),
    ]
}
