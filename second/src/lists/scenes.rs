//! Recordings whose triangles overlap, touch or miss one another more often than by chance.

use super::recordings::{file_of, placed, sets, Part};
use crate::classes::{needles, touching, worked as cases};
use crate::decision::decide;
use crate::files::draft::Triangle;
use crate::files::shapes::{self, cross};
use crate::footprint::stored::{HELD_BACK, TEST, TRAINING};
use crate::random::Random;
use crate::triangles::{intersect, ROOM};

/// The worked cases that a file can hold, as U and V: A to H.
fn worked_pairs() -> Vec<[Triangle; 2]> {
    cases::in_turn().iter().take(8).map(|case| both(&case.values)).collect()
}

/// F, by its place among them.
const TOUCHING_CASE: usize = 5;

fn both(values: &[f64]) -> [Triangle; 2] {
    [0, 6].map(|from| {
        let stored: Vec<i32> = values[from..from + 6].iter().map(|value| *value as i32).collect();
        stored.try_into().expect("a triangle has six values")
    })
}

pub fn worked(random: &mut Random) -> Vec<u8> {
    let all = worked_pairs();
    let pairs: Vec<[Triangle; 2]> = (0..1 + random.below(4)).map(|_| random.pick(&all)).collect();
    of_pairs(&pairs, random)
}

pub fn touching(random: &mut Random) -> Vec<u8> {
    let mut pairs = Vec::new();
    let wanted = 1 + random.below(4);
    while pairs.len() < wanted {
        let pair = both(&touching::any(random).shuffled(random).values());
        if pair.iter().all(|triangle| cross(*triangle) != 0) {
            pairs.push(pair);
        }
    }
    of_pairs(&pairs, random)
}

/// One pair, at the very place where rounding does most to it; at times one that overlaps by rounding, if
/// some tries find such a one.
pub fn part_of_an_edge(random: &mut Random) -> Vec<u8> {
    let tries = random.pick(&[1, 6]);
    let mut pair = touching::part_of_an_edge(random).shuffled(random);
    for _ in 1..tries {
        if decide(&pair.values()).overlaps() {
            break;
        }
        pair = touching::part_of_an_edge(random).shuffled(random);
    }
    one_each(both(&pair.values()), random)
}

/// One pair that is far by its boxes, and that the triangle rules give a ring, with an area or without, if
/// some tries find such a one.
pub fn needle(random: &mut Random) -> Vec<u8> {
    const TRIES: usize = 40;
    let with_area = random.once_in(2);
    let mut pair = needles::beyond_the_tip(random);
    for _ in 1..TRIES {
        pair = pair.shuffled(random);
        let answer = intersect(&pair.values(), &mut [0.0; ROOM]);
        if answer.n > 0 && (answer.area > 0.0) == with_area {
            break;
        }
        pair = needles::beyond_the_tip(random);
    }
    one_each(both(&pair.values()), random)
}

fn one_each([test, training]: [Triangle; 2], random: &mut Random) -> Vec<u8> {
    let mut recordings = [(TEST, vec![test]), (TRAINING, vec![training])];
    random.shuffle(&mut recordings);
    let (sets, parts): (Vec<u8>, Vec<Part>) = recordings.into_iter().unzip();
    file_of(&parts, &sets, random)
}

/// U's in test recordings and V's in training ones, one or two of each; at times some are held
/// back as well. The recordings stand in any order.
fn of_pairs(pairs: &[[Triangle; 2]], random: &mut Random) -> Vec<u8> {
    let mut recordings: Vec<(u8, Part)> = Vec::new();
    for (set, which) in [(TEST, 0), (TRAINING, 1)] {
        let all: Part = pairs.iter().map(|pair| pair[which]).collect();
        let (front, back) = all.split_at(random.below(all.len()));
        recordings
            .extend([front, back].iter().filter(|part| !part.is_empty()).map(|part| (set, part.to_vec())));
    }
    while random.once_in(3) {
        recordings.push((HELD_BACK, random.pick(pairs).to_vec()));
    }
    random.shuffle(&mut recordings);
    let (sets, mut parts): (Vec<u8>, Vec<Part>) = recordings.into_iter().unzip();
    placed(&mut parts, random);
    file_of(&parts, &sets, random)
}

/// Corners on a few lattice points: shared corners and edges come by themselves.
pub fn on_grid(random: &mut Random, recordings: usize, most: usize) -> Vec<Part> {
    let side = random.between(2, 7);
    let mut parts: Vec<Part> = Vec::new();
    for _ in 0..recordings {
        let count = 1 + random.below(most);
        parts.push((0..count).map(|_| shapes::not_flat(random, |r| r.between(0, side))).collect());
    }
    placed(&mut parts, random);
    parts
}

pub fn grid(random: &mut Random, least: usize, most: usize, most_triangles: usize) -> Vec<u8> {
    let recordings = least + random.below(most - least + 1);
    let parts = on_grid(random, recordings, most_triangles);
    let sets = sets(random, recordings);
    file_of(&parts, &sets, random)
}

pub fn one_set(random: &mut Random) -> Vec<u8> {
    let most = random.pick(&[3, 10, 64]);
    let recordings = 1 + random.below(most);
    let parts = on_grid(random, recordings, 2);
    let set = random.pick(&[TRAINING, TEST, HELD_BACK]);
    file_of(&parts, &vec![set; recordings], random)
}

/// Two recordings with their triangles in two rows far apart; the first, the last or any one of each row is
/// replaced, and those two overlap or touch.
pub fn one_pair(random: &mut Random) -> Vec<u8> {
    let case = if random.once_in(2) { random.pick(&[0, 1, 2, 3, 6, 7]) } else { TOUCHING_CASE };
    let pair = worked_pairs()[case];
    let mut row = |y: i32| -> Part {
        let count = 2 + random.below(4) as i32;
        (1..=count).map(|k| [20 * k, y, 20 * k + 9, y, 20 * k, y + 9]).collect()
    };
    let (mut tests, mut trainings) = (row(20), row(-30));
    let which = random.below(3);
    for (part, triangle) in [(&mut tests, pair[0]), (&mut trainings, pair[1])] {
        let (last, some) = (part.len() - 1, random.below(part.len()));
        part[[0, last, some][which]] = triangle;
    }
    two_recordings(tests, trainings, random)
}

/// Every triangle of the test recording within every one of the training recording, but for some
/// that are far away.
pub fn many_pairs(random: &mut Random) -> Vec<u8> {
    let (tests, trainings) = (3 + random.below(40), 3 + random.below(40));
    let mut inner: Part = (0..tests).map(|_| shapes::not_flat(random, |r| r.between(-40, 40))).collect();
    let outer = (0..trainings).map(|_| around(random.between(200, 900))).collect();
    for _ in 0..random.below(3) {
        let k = random.below(tests);
        inner[k] = inner[k].map(|value| value + 5_000);
    }
    two_recordings(inner, outer, random)
}

fn two_recordings(tests: Part, trainings: Part, random: &mut Random) -> Vec<u8> {
    let (mut parts, sets) = match random.below(2) {
        0 => (vec![tests, trainings], [TEST, TRAINING]),
        _ => (vec![trainings, tests], [TRAINING, TEST]),
    };
    placed(&mut parts, random);
    file_of(&parts, &sets, random)
}

/// A triangle around everything that is within a fifth of the distance.
pub fn around(distance: i32) -> Triangle {
    [-distance, -distance, 2 * distance, -distance, -distance, 2 * distance]
}
