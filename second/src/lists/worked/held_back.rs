//! Recordings that are stored as held back, in every place where training ones may be. The last line counts
//! them all, whatever they meet.

use super::{
    listed, Worked, AROUND_E, BESIDE_D, NOTHING_OF_ONE, ONE_LEAKS_OF_ONE, ONE_TOUCHES_OF_ONE,
    PAST_THE_CORNER, U_OF_A, U_OF_D, U_OF_E, U_OF_F, V,
};
use crate::files::draft::Triangle;
use crate::footprint::stored::{HELD_BACK, TEST, TRAINING};

const NOTHING_OF_TWO: &str = "leaks 0\ntouching 0\nformerly held back 2\n";

pub fn all() -> Vec<Worked> {
    [beside_a_test(), beside_others(), in_order(), many()].into_iter().flatten().collect()
}

/// One that overlaps a test, only touches it, is apart though the boxes share a point, or is far away.
fn beside_a_test() -> Vec<Worked> {
    let two = |list: &str, tested: u32, test: Triangle| {
        listed(list, tested, &[(7, HELD_BACK, &[V]), (9, TEST, &[test])])
    };
    vec![
        two(ONE_LEAKS_OF_ONE, 1, U_OF_D),
        two(ONE_TOUCHES_OF_ONE, 1, U_OF_F),
        two(NOTHING_OF_ONE, 1, PAST_THE_CORNER),
        two(NOTHING_OF_ONE, 0, U_OF_E),
        listed(ONE_LEAKS_OF_ONE, 1, &[(9, TEST, &[U_OF_D]), (7, HELD_BACK, &[V])]),
        listed(
            "leaks 1\ntest 9 train 7 pairs 1\ntouching 1\nformerly held back 1\n",
            2,
            &[(3, TEST, &[U_OF_F]), (7, HELD_BACK, &[V]), (9, TEST, &[U_OF_D])],
        ),
    ]
}

/// No test is near. That they overlap or touch what is training, or one another, makes no line.
fn beside_others() -> Vec<Worked> {
    vec![
        listed(NOTHING_OF_ONE, 0, &[(7, HELD_BACK, &[V])]),
        listed(NOTHING_OF_ONE, 0, &[(7, TRAINING, &[V]), (9, HELD_BACK, &[U_OF_D])]),
        listed(NOTHING_OF_ONE, 0, &[(7, TRAINING, &[V]), (9, HELD_BACK, &[U_OF_F])]),
        listed(NOTHING_OF_TWO, 0, &[(7, HELD_BACK, &[V]), (9, HELD_BACK, &[U_OF_D])]),
        listed(NOTHING_OF_ONE, 0, &[(7, TRAINING, &[V]), (8, HELD_BACK, &[U_OF_D]), (9, TEST, &[U_OF_E])]),
        listed(NOTHING_OF_ONE, 0, &[(8, HELD_BACK, &[U_OF_F]), (9, TEST, &[U_OF_E]), (7, TRAINING, &[V])]),
        listed(NOTHING_OF_TWO, 0, &[(9, TEST, &[U_OF_E]), (7, HELD_BACK, &[V]), (8, HELD_BACK, &[U_OF_D])]),
        // As a test, 8 would have a line with 7. It shares (1,1) with 9.
        listed(
            "leaks 1\ntest 9 train 7 pairs 1\ntouching 1\nformerly held back 1\n",
            2,
            &[(7, TRAINING, &[V]), (8, HELD_BACK, &[U_OF_A]), (9, TEST, &[U_OF_D])],
        ),
    ]
}

/// Among the training ones where the table has them, not before or behind all of these; or without any.
fn in_order() -> Vec<Worked> {
    let all = [V, U_OF_A, U_OF_D];
    vec![
        listed(
            "leaks 5\n\
             test 9 train 5 pairs 1\ntest 9 train 8 pairs 1\ntest 9 train 2 pairs 1\ntest 9 train 6 pairs 2\n\
             test 9 train 3 pairs 1\n\
             touching 1\nformerly held back 3\n",
            7,
            &[
                (5, TRAINING, &[V]),
                (8, HELD_BACK, &[V]),
                (9, TEST, &[U_OF_D]),
                (2, TRAINING, &[V]),
                (6, HELD_BACK, &[V, U_OF_D]),
                (1, HELD_BACK, &[BESIDE_D]),
                (3, TRAINING, &[V]),
            ],
        ),
        // 9 overlaps V and itself, and shares (1,1) with U of A.
        listed(
            "leaks 4\n\
             test 9 train 1 pairs 2\ntest 9 train 7 pairs 1\ntest 9 train 2 pairs 2\ntest 9 train 3 pairs 2\n\
             touching 0\nformerly held back 3\n",
            3 * 3 + 1,
            &[
                (1, HELD_BACK, &all),
                (7, TRAINING, &[V]),
                (2, HELD_BACK, &all),
                (9, TEST, &[U_OF_D]),
                (3, HELD_BACK, &all),
            ],
        ),
        listed(
            "leaks 2\ntest 9 train 4 pairs 1\ntest 2 train 3 pairs 1\ntouching 0\nformerly held back 2\n",
            2,
            &[(4, HELD_BACK, &[V]), (9, TEST, &[U_OF_D]), (3, HELD_BACK, &[AROUND_E]), (2, TEST, &[U_OF_E])],
        ),
    ]
}

/// So many that their number takes a digit more: without a test, and then all of them with one.
fn many() -> Vec<Worked> {
    let mut all = Vec::new();
    for count in [9, 10, 11] {
        let mut recordings: Vec<(u32, u8, &[Triangle])> =
            (0..count).map(|id| (id, HELD_BACK, &[V][..])).collect();
        all.push(listed(&format!("leaks 0\ntouching 0\nformerly held back {count}\n"), 0, &recordings));
        recordings.insert(5, (99, TEST, &[U_OF_A]));
        let lines: String = (0..count).map(|id| format!("test 99 train {id} pairs 1\n")).collect();
        let list = format!("leaks {count}\n{lines}touching 0\nformerly held back {count}\n");
        all.push(listed(&list, count, &recordings));
    }
    all
}
