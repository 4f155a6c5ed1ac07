//! Tests that go by the second edition of the leak rule, in other classes' files and in files of their own.

pub mod limits;
pub mod sums;

use super::recordings::{file_of, placed, seen_from_any_side, Part};
use super::{CLASSES, OF_ANY_SETS};
use crate::files::draft::Triangle;
use crate::files::draw_from;
use crate::files::editions::with_editions;
use crate::footprint::stored::{FIRST_EDITION, HELD_BACK, SECOND_EDITION, TEST, TRAINING};
use crate::random::Random;

/// Those that have something held back, behind the one whose files are mostly refused.
const HELD_BACK_ONES: usize = 3;

/// A file of another class, of which all tests go by the second edition, or one, or all but one, or some.
pub fn among_others(random: &mut Random) -> Vec<u8> {
    let others = if random.once_in(4) {
        &CLASSES[OF_ANY_SETS + 1..][..HELD_BACK_ONES]
    } else {
        &CLASSES[..OF_ANY_SETS]
    };
    let file = others[draw_from(others, random)].file(random);
    with_any_editions(&file, random)
}

pub fn with_any_editions(file: &[u8], random: &mut Random) -> Vec<u8> {
    let (one, mut tests) = (random.below(3), 0);
    let mut is_one = || {
        tests += 1;
        tests == one + 1
    };
    match random.below(5) {
        0 => with_editions(file, |_| u8::from(is_one())),
        1 => with_editions(file, |_| u8::from(!is_one())),
        2 => with_editions(file, |_| random.pick(&[FIRST_EDITION, SECOND_EDITION])),
        _ => with_editions(file, |_| SECOND_EDITION),
    }
}

/// An area of 20,000. A second test is far away.
const TESTS: [Triangle; 2] = [[0, 0, 200, 0, 0, 200], [1_000, 0, 1_200, 0, 1_000, 200]];
/// Within the first test: next to nothing, a quarter of a hundredth, six tenths of it, just under a hundredth, a
/// hundredth, just over it, and much more; along an edge of it; at a corner of it; and past its longest edge,
/// with a box that is near.
const BESIDE: [Triangle; 10] = [
    [50, 50, 51, 50, 50, 51],
    [10, 10, 20, 10, 10, 20],
    [20, 20, 40, 20, 20, 32],
    [10, 10, 30, 11, 11, 30],
    [10, 10, 30, 10, 10, 30],
    [10, 10, 30, 11, 9, 30],
    [10, 10, 90, 10, 10, 90],
    [0, 0, 200, 0, 50, -50],
    [0, 0, -40, 0, 0, -40],
    [180, 180, 220, 180, 180, 220],
];
/// Which of these are slivers, which overlap, which touch, and which are no leak.
const SLIVERS: [usize; 5] = [0, 1, 2, 3, 4];
const OVERLAPPING: [usize; 7] = [0, 1, 2, 3, 4, 5, 6];
const NEIGHBOURS: [usize; 2] = [7, 8];
const NO_LEAKS: [usize; 8] = [0, 1, 2, 3, 4, 7, 8, 9];
const ALL: [usize; 10] = [0, 1, 2, 3, 4, 5, 6, 7, 8, 9];

/// What is a sliver of a test, more than that, next to it or apart from it; of each there may be several, by
/// themselves or two in one recording, stored as training or as held back. The same test may be there again,
/// and each of them goes by an edition of its own. At times nothing is a leak by the second edition, or one
/// training recording is all that there is beside them, or nothing at all.
pub fn roles(random: &mut Random) -> Vec<u8> {
    let sets = random.pick(&[[TRAINING; 2], [TRAINING, HELD_BACK], [HELD_BACK; 2]]);
    let mut recordings: Vec<(u8, Part)> = vec![(TEST, vec![turned(TESTS[0], random)])];
    for _ in 0..random.below(3) {
        recordings.push((TEST, vec![turned(random.pick(&[TESTS[0], TESTS[0], TESTS[1]]), random)]));
    }
    let (from, most) = random.pick(&[(&ALL[..], 6), (&ALL[..], 6), (&NO_LEAKS[..], 5), (&SLIVERS[..], 1)]);
    for _ in 0..1 + random.below(most) {
        let mut part = vec![BESIDE[random.pick(from)]];
        if random.once_in(3) {
            let others = if most == 6 { &OVERLAPPING[..] } else { &NEIGHBOURS[..] };
            let from = random.pick(&[&NEIGHBOURS[..], others]);
            part.insert(random.below(2), BESIDE[random.pick(from)]);
        }
        for _ in 0..1 + random.below(most.min(2)) {
            recordings.push((random.pick(&sets), part.clone()));
        }
    }
    if random.once_in(10) {
        recordings.retain(|(set, _)| *set == TEST);
    }
    random.shuffle(&mut recordings);
    let (sets, mut parts): (Vec<u8>, Vec<Part>) = recordings.into_iter().unzip();
    seen_from_any_side(&mut parts, random);
    placed(&mut parts, random);
    let file = file_of(&parts, &sets, random);
    if random.once_in(2) {
        with_editions(&file, |_| SECOND_EDITION)
    } else {
        with_editions(&file, |_| random.pick(&[FIRST_EDITION, SECOND_EDITION, SECOND_EDITION]))
    }
}

/// The other way round, or as it is.
fn turned([x0, y0, x1, y1, x2, y2]: Triangle, random: &mut Random) -> Triangle {
    random.pick(&[[x0, y0, x1, y1, x2, y2], [x0, y0, x2, y2, x1, y1]])
}

/// A test of the second edition and a training recording, in either order; at times the training is stored as
/// held back, or is there again, or the test is, by the first edition.
fn of_one_test(test: Part, training: Part, random: &mut Random) -> Vec<u8> {
    let set = if random.once_in(4) { HELD_BACK } else { TRAINING };
    let mut recordings = vec![(SECOND_EDITION, TEST, test.clone()), (FIRST_EDITION, set, training.clone())];
    if random.once_in(4) && training.len() < 60 {
        recordings.push((FIRST_EDITION, random.pick(&[TRAINING, HELD_BACK]), training));
    }
    if random.once_in(4) && test.len() < 60 {
        recordings.push((FIRST_EDITION, TEST, test));
    }
    random.shuffle(&mut recordings);
    let sets: Vec<u8> = recordings.iter().map(|one| one.1).collect();
    let parts: Vec<Part> = recordings.iter().map(|one| one.2.clone()).collect();
    let mut editions = recordings.iter().filter(|one| one.1 == TEST).map(|one| one.0);
    let file = file_of(&parts, &sets, random);
    with_editions(&file, |_| editions.next().unwrap_or(FIRST_EDITION))
}

/// A triangle whose cross is so much, more than zero; it begins at this corner and reaches to the upper right.
fn of_cross(cross: i64, corner: [i32; 2]) -> Triangle {
    let width = (cross as f64).sqrt().ceil() as i64;
    let height = (cross + width - 1) / width;
    // width · height − 1 · over
    let over = width * height - cross;
    let [x, y] = corner;
    [x, y, x + width as i32, y + 1, x + over as i32, y + height as i32]
}

#[cfg(test)]
mod tests {
    use super::*;
    use crate::files::shapes::cross;

    #[test]
    fn crosses() {
        for wanted in (1..2_000).chain([99_999, 1_000_000, 2_559_999_999_999, 2_560_000_000_000]) {
            assert_eq!(cross(of_cross(wanted, [-600_000, -7])), i128::from(wanted));
        }
    }
}
