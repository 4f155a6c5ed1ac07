//! Recordings that are stored as held back, where others would be training.

use super::recordings::{file_of, placed, seen_from_any_side, Part};
use super::scenes::on_grid;
use super::{CLASSES, OF_ANY_SETS};
use crate::files::draft::Triangle;
use crate::files::draw_from;
use crate::files::sets::with_sets;
use crate::footprint::stored::{HELD_BACK, TEST, TRAINING};
use crate::random::Random;

/// A file of another class with all its training recordings stored as held back, or one of them, or some, or
/// those that were training stored as the others were.
pub fn among_others(random: &mut Random) -> Vec<u8> {
    let file = CLASSES[draw_from(&CLASSES[..OF_ANY_SETS], random)].file(random);
    let exchanged = |set: u8| [HELD_BACK, TEST, TRAINING][usize::from(set)];
    match random.below(4) {
        0 => with_sets(&file, |set| if set == TRAINING { HELD_BACK } else { set }),
        1 => with_sets(&file, exchanged),
        2 => {
            let (one, mut trainings) = (1 + random.below(3), 0);
            with_sets(&file, |set| {
                trainings += usize::from(set == TRAINING);
                if set == TRAINING && trainings == one {
                    HELD_BACK
                } else {
                    set
                }
            })
        }
        _ => with_sets(&file, |set| if set == TRAINING && random.once_in(2) { HELD_BACK } else { set }),
    }
}

/// A test recording is one of these, and so is a second one, far from the first.
const TESTS: [Triangle; 2] = [[0, 0, 6, 0, 0, 6], [100, 0, 106, 0, 100, 6]];
/// Within the first test, at an edge and at a corner of it, with a box that shares no more than a corner with
/// its box, far from all tests, and at an edge of the one that is far.
const BESIDE: [Triangle; 6] = [
    [1, 1, 3, 1, 1, 3],
    [0, 0, 6, 0, 2, -5],
    [0, 0, -4, 0, 0, -4],
    [6, 6, 8, 6, 6, 8],
    [50, 50, 53, 50, 50, 53],
    [50, 50, 53, 50, 52, 45],
];

/// What overlaps a test, only touches it, is apart from it, or meets other recordings only; of each there may
/// be several, stored as held back or as training, in any order.
pub fn roles(random: &mut Random) -> Vec<u8> {
    let mut recordings: Vec<(u8, Part)> = vec![(TEST, vec![TESTS[0]])];
    if random.once_in(3) {
        recordings.push((TEST, vec![TESTS[1]]));
    }
    let sets = random.pick(&[[HELD_BACK; 2], [HELD_BACK, TRAINING], [HELD_BACK, TRAINING]]);
    for (k, triangle) in BESIDE.into_iter().enumerate() {
        let most = if k == 0 { 5 } else { 3 };
        for _ in 0..random.below(most) {
            recordings.push((random.pick(&sets), vec![triangle]));
        }
    }
    // One recording beside both tests: it overlaps the one and touches the other.
    let two_tests = recordings.get(1).map_or(false, |second| second.0 == TEST);
    if two_tests && random.once_in(2) {
        recordings.push((HELD_BACK, vec![BESIDE[0], [100, 0, 106, 0, 103, -4]]));
    }
    random.shuffle(&mut recordings);
    let (sets, mut parts): (Vec<u8>, Vec<Part>) = recordings.into_iter().unzip();
    seen_from_any_side(&mut parts, random);
    placed(&mut parts, random);
    file_of(&parts, &sets, random)
}

/// 64 recordings: all stored as held back, or all but one test, or all but some.
pub fn crowd(random: &mut Random) -> Vec<u8> {
    const ALL: usize = 64;
    let parts = on_grid(random, ALL, 1);
    let some = 2 + random.below(20);
    let tests = random.pick(&[0, 1, some]);
    let mut sets = [HELD_BACK; ALL];
    sets[..tests].fill(TEST);
    random.shuffle(&mut sets);
    if tests == 1 {
        // The first, the last, or where chance has put it.
        match random.below(3) {
            0 => sets.sort_unstable(),
            1 => sets.sort_unstable_by(|one, other| other.cmp(one)),
            _ => {}
        }
    }
    file_of(&parts, &sets, random)
}
