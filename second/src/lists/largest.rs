//! The largest files, whose lists are known without any program.

use super::recordings::Part;
use super::scenes::around;
use super::worked::NOTHING;
use crate::files::draft::{Draft, Triangle};
use crate::files::editions::with_editions;
use crate::files::good::most_triangles;
use crate::footprint::stored::{FIRST_EDITION, HELD_BACK, SECOND_EDITION, TEST, TRAINING};

pub struct Large {
    pub name: &'static str,
    pub file: Vec<u8>,
    pub list: String,
    pub tested: u32,
    /// Whether a call takes so long that one will have to do.
    pub slow: bool,
}

pub fn all() -> Vec<Large> {
    let one = most_triangles(1) as u16;
    let of_one = |set: u8| Draft::of(&[7], &[one], &[set], inner(one.into())).bytes();
    let nothing = |name, file| Large { name, file, list: NOTHING.to_string(), tested: 0, slow: false };
    vec![
        one_pair_of_recordings(),
        all_near_and_apart(),
        none_near(),
        all_lines("32 x 32 recordings that all overlap", |_| TRAINING),
        all_lines("32 x 32 recordings that all overlap, by turns held back", BY_TURNS),
        all_lines("32 x 32 recordings that all overlap, all but tests held back", |_| HELD_BACK),
        of_the_second("32 x 32 recordings that all overlap, of the second edition", |_| TRAINING),
        of_the_second(
            "32 x 32 recordings that all overlap, of the second edition, by turns held back",
            BY_TURNS,
        ),
        slivers(
            "32 x 32 recordings that overlap by a sliver, by turns of both editions",
            BY_TURNS,
            BY_EDITIONS,
        ),
        slivers("32 x 32 recordings that overlap by a sliver", |_| TRAINING, |_| SECOND_EDITION),
        all_touching("32 x 32 recordings that all touch", |_| TRAINING),
        all_touching("32 x 32 recordings that all touch, by turns held back", BY_TURNS),
        lines_and_touching("32 x 32 recordings of which some overlap and the others touch", |_| TRAINING),
        lines_and_touching("32 x 32 recordings of which some overlap, by turns held back", BY_TURNS),
        all_held_back(),
        all_but_one_held_back(),
        nothing("2,729 triangles of one test recording", of_one(TEST)),
        nothing("2,729 triangles of one training recording", of_one(TRAINING)),
    ]
}

/// Small ones, all within every one of `outer`.
fn inner(count: usize) -> Vec<Triangle> {
    let small = |x: i32, y: i32| [x, y, x + 3, y, x, y + 2];
    (0..count as i32).map(|k| small(k % 50 - 25, k / 50 - 25)).collect()
}

fn outer(count: usize) -> Vec<Triangle> {
    (0..count as i32).map(|k| around(1_000 + k)).collect()
}

/// One line, as long as a line gets: two ids of ten digits, and N of seven.
fn one_pair_of_recordings() -> Large {
    let counts = [1_365, 1_364];
    let triangles = [outer(1_365), inner(1_364)].concat();
    let ids = [u32::MAX, u32::MAX - 1];
    Large {
        name: "1,364 x 1,365 triangles that all overlap",
        file: Draft::of(&ids, &counts, &[TRAINING, TEST], triangles).bytes(),
        list: "leaks 1\ntest 4294967294 train 4294967295 pairs 1861860\ntouching 0\nformerly held back 0\n"
            .to_string(),
        tested: ALL_PAIRS,
        slow: true,
    }
}

const ALL_PAIRS: u32 = 1_364 * 1_365;

fn two_recordings(tests: Part, trainings: Part) -> Vec<u8> {
    let counts = [tests.len() as u16, trainings.len() as u16];
    Draft::of(&[3, 4], &counts, &[TEST, TRAINING], [tests, trainings].concat()).bytes()
}

/// The boxes all hold (750,750), but the ones lie below the line x + y = 1001 and the others above 2499.
fn all_near_and_apart() -> Large {
    let below = |k: i32| [-k, -k, 1_000, -k, -k, 1_000];
    let above = |k: i32| [2_000 + k, 2_000 + k, 2_000 + k, 500, 500, 2_000 + k];
    Large {
        name: "1,364 x 1,365 triangles that are apart, with near boxes",
        file: two_recordings((0..1_364).map(below).collect(), (0..1_365).map(above).collect()),
        list: NOTHING.to_string(),
        tested: ALL_PAIRS,
        slow: true,
    }
}

/// Cells of a board, by turns the one's and the other's.
fn none_near() -> Large {
    let cell = |k: i32| {
        let (x, y) = (6 * (k % 53), 6 * (k / 53));
        [x, y, x + 5, y, x, y + 5]
    };
    Large {
        name: "1,364 x 1,365 triangles side by side",
        file: two_recordings(
            (0..1_364).map(|k| cell(2 * k)).collect(),
            (0..1_365).map(|k| cell(2 * k + 1)).collect(),
        ),
        list: NOTHING.to_string(),
        tested: 0,
        slow: true,
    }
}

/// Ids of ten digits.
fn test_id(k: usize) -> u32 {
    u32::MAX - 77 * k as u32
}

fn training_id(k: usize) -> u32 {
    u32::MAX - 1_000_000 * (k as u32 + 1)
}

/// The set of each training recording, by its number among them.
type Sets = fn(usize) -> u8;

/// Two of each.
const BY_TURNS: Sets = |k| if k % 4 < 2 { TRAINING } else { HELD_BACK };

/// The edition of each test recording, by its number among them.
type Editions = fn(usize) -> u8;

const BY_EDITIONS: Editions = |k| [FIRST_EDITION, SECOND_EDITION][k % 2];

/// 32 test and 32 training recordings by turns, and the latter of these sets.
fn by_turns(tests: impl Fn(usize) -> Part, trainings: impl Fn(usize) -> Part, sets: Sets) -> Vec<u8> {
    let sets: Vec<u8> = (0..32).flat_map(|k| [TEST, sets(k)]).collect();
    let parts: Vec<Part> = (0..32).flat_map(|k| [tests(k), trainings(k)]).collect();
    let ids: Vec<u32> = (0..32).flat_map(|k| [test_id(k), training_id(k)]).collect();
    let counts: Vec<u16> = parts.iter().map(|part| part.len() as u16).collect();
    Draft::of(&ids, &counts, &sets, parts.concat()).bytes()
}

/// Of such a file, from how many triangles each of its recordings has.
fn triangle_pairs(of_test: fn(usize) -> usize, of_training: fn(usize) -> usize) -> u32 {
    ((0..32).map(of_test).sum::<usize>() * (0..32).map(of_training).sum::<usize>()) as u32
}

/// The list of such a file, from the number of overlapping pairs of every two recordings.
fn list_of(pairs: impl Fn(usize, usize) -> usize, touching: usize, sets: Sets) -> String {
    let (mut count, mut lines) = (0, String::new());
    for test in 0..32 {
        for training in (0..32).filter(|training| pairs(test, *training) > 0) {
            let (ids, pairs) = ([test_id(test), training_id(training)], pairs(test, training));
            lines += &format!("test {} train {} pairs {pairs}\n", ids[0], ids[1]);
            count += 1;
        }
    }
    let held_back = (0..32).filter(|k| sets(*k) == HELD_BACK).count();
    format!("leaks {count}\n{lines}touching {touching}\nformerly held back {held_back}\n")
}

/// Every test recording with every training one; N from 100 to 132.
fn all_lines(name: &'static str, sets: Sets) -> Large {
    let (of_test, of_training) = (|k: usize| 10 + k % 3, |k: usize| 10 + k % 2);
    Large {
        name,
        file: by_turns(|k| inner(of_test(k)), |k| outer(of_training(k)), sets),
        list: list_of(|test, training| of_test(test) * of_training(training), 0, sets),
        tested: triangle_pairs(of_test, of_training),
        slow: false,
    }
}

/// The same lines by the second edition: all of a test overlaps.
fn of_the_second(name: &'static str, sets: Sets) -> Large {
    let large = all_lines(name, sets);
    Large { file: with_editions(&large.file, |_| SECOND_EDITION), ..large }
}

/// The same again, but every test has one more triangle, far away and so large that no overlap comes to a
/// hundredth of it: there are lines for the tests of the first edition.
fn slivers(name: &'static str, sets: Sets, editions: Editions) -> Large {
    const FAR: Triangle = [500_000, 500_000, 600_000, 500_000, 500_000, 600_000];
    let (of_test, of_training) = (|k: usize| 10 + k % 3, |k: usize| 10 + k % 2);
    let with_far = |k: usize| [inner(of_test(k)), vec![FAR]].concat();
    let file = by_turns(with_far, |k| outer(of_training(k)), sets);
    let mut in_turn = (0..32).map(editions);
    let pairs = |test: usize, training: usize| match editions(test) {
        FIRST_EDITION => of_test(test) * of_training(training),
        _ => 0,
    };
    Large {
        name,
        file: with_editions(&file, |_| in_turn.next().unwrap_or(FIRST_EDITION)),
        list: list_of(pairs, 0, sets),
        tested: triangle_pairs(of_test, of_training),
        slow: false,
    }
}

/// An edge on the axis from −100 or less to 100 or more, and the third corner on one side of it. Every
/// two of different sides share that stretch and nothing else. All numbers are so small that no sign and no
/// pair test is rounded, and no corner is rounded off the axis: where both ends of an edge have a y of zero,
/// so has all that lies between them.
fn beside_the_axis(side: i32, k: usize) -> Triangle {
    let k = k as i32;
    [-100 - k, 0, 100 + 7 * k, 0, 13 * k - 200, side * (50 + k)]
}

/// Every test recording with every training one, in one to six triangle pairs.
fn all_touching(name: &'static str, sets: Sets) -> Large {
    let part = |side: i32, k: usize, count: usize| (k..k + count).map(|k| beside_the_axis(side, k)).collect();
    let (of_test, of_training) = (|k: usize| 1 + k % 2, |k: usize| 1 + k % 3);
    Large {
        name,
        file: by_turns(|k| part(1, k, of_test(k)), |k| part(-1, k, of_training(k)), sets),
        list: list_of(|_, _| 0, 32 * 32, sets),
        tested: triangle_pairs(of_test, of_training),
        slow: false,
    }
}

/// The same, and far from the axis every other test recording has a triangle within one of every third
/// training recording, at its beginning or at its end.
fn lines_and_touching(name: &'static str, sets: Sets) -> Large {
    let far = |triangle: Triangle| triangle.map(|value| value + 50_000);
    let with = |more: bool, triangle: Triangle, part: Triangle, k: usize| match (more, k % 4 < 2) {
        (false, _) => vec![part],
        (true, true) => vec![triangle, part],
        (true, false) => vec![part, triangle],
    };
    let (of_test, of_training) = (|k: usize| k % 2 == 0, |k: usize| k % 3 == 0);
    let tests = |k: usize| with(of_test(k), far(inner(1)[0]), beside_the_axis(1, k), k);
    let trainings = |k: usize| with(of_training(k), far(outer(1)[0]), beside_the_axis(-1, k), k);
    let overlapping = 16 * 11;
    Large {
        name,
        file: by_turns(tests, trainings, sets),
        list: list_of(
            |test, training| usize::from(of_test(test) && of_training(training)),
            32 * 32 - overlapping,
            sets,
        ),
        // All beside the axis with one another, and all far from it with one another.
        tested: 32 * 32 + overlapping as u32,
        slow: false,
    }
}

/// As many triangles as fit, all of which overlap: the last recording has what is left, the others have 42
/// each.
fn of_64(sets: &[u8; 64]) -> Vec<u8> {
    let ids: Vec<u32> = (0..64).collect();
    let mut counts = [42; 64];
    counts[63] += most_triangles(64) as u16 - 64 * 42;
    let triangles = outer(most_triangles(64));
    Draft::of(&ids, &counts, sets, triangles).bytes()
}

fn all_held_back() -> Large {
    Large {
        name: "64 recordings held back",
        file: of_64(&[HELD_BACK; 64]),
        list: "leaks 0\ntouching 0\nformerly held back 64\n".to_string(),
        tested: 0,
        slow: false,
    }
}

/// The test is in the middle, and has a line with each of the others.
fn all_but_one_held_back() -> Large {
    let mut sets = [HELD_BACK; 64];
    sets[40] = TEST;
    let of_last = most_triangles(64) - 63 * 42;
    let pairs = |id: usize| 42 * if id == 63 { of_last } else { 42 };
    let others = || (0..64).filter(|id| *id != 40);
    let lines: String = others().map(|id| format!("test 40 train {id} pairs {}\n", pairs(id))).collect();
    Large {
        name: "63 recordings held back and a test",
        file: of_64(&sets),
        list: format!("leaks 63\n{lines}touching 0\nformerly held back 63\n"),
        tested: others().map(pairs).sum::<usize>() as u32,
        slow: false,
    }
}

#[cfg(test)]
mod tests {
    use super::*;
    use crate::footprint::judge;
    use crate::leaks::whole_list;

    #[test]
    fn they_are_good_and_large() {
        for large in all() {
            assert_eq!(judge(&large.file).number, 0, "{}", large.name);
            let most_recordings = large.name.starts_with("32 x 32");
            assert!(large.file.len() > if most_recordings { 2_700 } else { 65_500 }, "{}", large.name);
        }
    }

    #[test]
    fn lists_are_as_known() {
        for large in all().iter().filter(|large| !large.slow) {
            let whole = whole_list(&large.file).expect("a good file");
            assert_eq!(whole.text, large.list, "{}", large.name);
            assert_eq!(whole.tested, large.tested, "{}", large.name);
        }
    }
}
