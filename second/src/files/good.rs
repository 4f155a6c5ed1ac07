//! Good files, from twelve bytes to the largest that fits.

use super::draft::Draft;
use super::editions::some_second;
pub use super::shapes::anywhere;
use super::shapes::{self, Shape};
use crate::footprint::stored::{ENTRY, TEST, TRAILER, TRIANGLE};
use crate::footprint::{MOST_BYTES, MOST_RECORDINGS};
use crate::random::Random;

const MOST: usize = MOST_RECORDINGS as usize;

pub fn none() -> Draft {
    Draft::of(&[], &[], &[], Vec::new())
}

/// One recording, of one triangle or some more.
pub fn one(random: &mut Random) -> Draft {
    let most = random.pick(&[1, 1, 2, 5, 40]);
    some_second(made(random, 1, most, shapes::any), random)
}

pub fn few(random: &mut Random) -> Draft {
    let recordings = 2 + random.below(5);
    let most = 1 + random.below(4);
    some_second(made(random, recordings, most, shapes::any), random)
}

pub fn several(random: &mut Random) -> Draft {
    let recordings = 2 + random.below(MOST - 2);
    let most = random.pick(&[1, 2, 8]);
    some_second(made(random, recordings, most, shapes::any), random)
}

pub fn full_table(random: &mut Random) -> Draft {
    let most = random.pick(&[1, 2, 4]);
    some_second(made(random, MOST, most, shapes::any), random)
}

/// Few recordings or 64, of which all are tests or some, and of these all go by the second edition or some.
pub fn of_the_second_edition(random: &mut Random) -> Draft {
    let mut draft = if random.once_in(4) { full_table(random) } else { few(random) };
    let (all_tests, all) = (random.once_in(3), random.once_in(2));
    for line in &mut draft.table {
        line.set = if all_tests { TEST } else { line.set };
        line.last = u8::from(line.set == TEST && (all || random.once_in(2)));
    }
    draft
}

/// As many triangles as fit beside the table, or one or two fewer.
pub fn largest(random: &mut Random) -> Draft {
    let some = 1 + random.below(MOST);
    let recordings = random.pick(&[1, 2, 63, 64, some]);
    let fewer = random.pick(&[0, 0, 0, 1, 2]);
    // The same few shapes again and again: thousands of new ones would take their time.
    let some: Vec<_> = (0..40).map(|_| shapes::any(random)).collect();
    let draft = filled(random, recordings, most_triangles(recordings) - fewer, |r| r.pick(&some));
    some_second(draft, random)
}

pub fn most_triangles(recordings: usize) -> usize {
    (MOST_BYTES - TRAILER - ENTRY * recordings) / TRIANGLE
}

/// Ids that differ from one another in a byte or two.
pub fn near_ids(random: &mut Random) -> Draft {
    let mut draft = if random.once_in(4) { full_table(random) } else { few(random) };
    let base = random.bits() as u32;
    let near = |r: &mut Random| base ^ (1 + r.below(255) as u32) << (8 * r.below(4));
    let ids = distinct(random, draft.table.len(), near);
    draft.table.iter_mut().zip(ids).for_each(|(line, id)| line.id = id);
    draft
}

pub fn of_shape(random: &mut Random, shape: Shape) -> Draft {
    let recordings = 1 + random.below(4);
    let most = 1 + random.below(6);
    some_second(made(random, recordings, most, shape), random)
}

/// What a fault is planted in: mostly short, so that faults come close to one another.
pub fn any(random: &mut Random) -> Draft {
    match random.below(24) {
        0..=5 => one(random),
        6..=18 => few(random),
        19..=20 => near_ids(random),
        21 => several(random),
        _ => full_table(random),
    }
}

/// Too long by one triangle or more, and good otherwise.
pub fn too_long(random: &mut Random) -> Draft {
    let recordings = random.pick(&[1, 2, 3, 64]);
    let more = random.pick(&[1, 1, 1, 2, 30, 1000]);
    let triangle = shapes::any(random);
    filled(random, recordings, most_triangles(recordings) + more, |_| triangle)
}

/// 65 recordings or more, and good otherwise.
pub fn too_many(random: &mut Random) -> Draft {
    let recordings = random.pick(&[65, 65, 65, 66, 128, 255, 256, 257, 320]);
    made(random, recordings, 1, shapes::any)
}

/// Each recording has from one triangle to `most`; tests go by the first edition.
pub fn made(random: &mut Random, recordings: usize, most: usize, shape: Shape) -> Draft {
    let counts: Vec<u16> = (0..recordings).map(|_| 1 + random.below(most) as u16).collect();
    let total: usize = counts.iter().map(|count| usize::from(*count)).sum();
    let triangles = (0..total).map(|_| shape(random)).collect();
    Draft::of(&ids(random, recordings), &counts, &sets(random, recordings), triangles)
}

/// So many triangles in all, shared out unevenly; tests go by the first edition.
pub fn filled(
    random: &mut Random,
    recordings: usize,
    total: usize,
    mut triangle: impl FnMut(&mut Random) -> [i32; 6],
) -> Draft {
    let mut counts = vec![(total / recordings) as u16; recordings];
    counts[recordings - 1] += (total % recordings) as u16;
    for _ in 0..recordings {
        let (from, to) = (random.below(recordings), random.below(recordings));
        let moved = random.below(usize::from(counts[from])) as u16;
        counts[from] -= moved;
        counts[to] += moved;
    }
    let triangles = (0..total).map(|_| triangle(random)).collect();
    Draft::of(&ids(random, recordings), &counts, &sets(random, recordings), triangles)
}

fn ids(random: &mut Random, count: usize) -> Vec<u32> {
    const ENDS: [u32; 6] = [0, u32::MAX, 1, u32::MAX - 1, 1 << 31, (1 << 31) - 1];
    match random.below(3) {
        0 => distinct(random, count, |r| r.bits() as u32),
        1 => distinct(random, count, |r| r.below(400) as u32),
        _ => distinct(random, count, |r| if r.once_in(2) { r.pick(&ENDS) } else { r.bits() as u32 }),
    }
}

/// So many ids, no two alike.
pub fn distinct(random: &mut Random, count: usize, mut id: impl FnMut(&mut Random) -> u32) -> Vec<u32> {
    let mut ids = Vec::new();
    while ids.len() < count {
        let next = id(random);
        if !ids.contains(&next) {
            ids.push(next);
        }
    }
    ids
}

fn sets(random: &mut Random, count: usize) -> Vec<u8> {
    (0..count).map(|_| random.below(3) as u8).collect()
}
