//! What is refused before any entry is looked at: lists of different lengths, and a triangle broken off.

use super::coverage::Coverage;
use super::faults::sum_of;
use crate::writer::{Reason, NUMBERS};

/// The lists that must be as long as one another, by name and place in `lengths`.
pub const LISTS: [&str; 4] = ["ids", "counts", "sets", "lasts"];

/// Of one list's length, and that of the three others.
pub type Lengths = (&'static str, fn(usize, usize) -> bool);

pub const LENGTHS: [Lengths; 4] = [
    ("one shorter", |one, others| one + 1 == others),
    ("one longer", |one, others| one == others + 1),
    ("empty and the others not", |one, others| one == 0 && others > 0),
    ("not empty and the others are", |one, others| one > 0 && others == 0),
];

/// Nothing else is to be refused at once, whatever comes later.
pub fn odd_one(c: &Coverage, list: usize, test: fn(usize, usize) -> bool) -> bool {
    let lengths = c.draft.lengths();
    let mut others = lengths.to_vec();
    let one = others.remove(list);
    others == [others[0]; 3] && test(one, others[0]) && !c.has(Reason::BrokenOff)
}

/// The one list is shorter and the other longer than the rest, by as much, so that the sum is right.
pub fn made_up_for(c: &Coverage, shorter: usize, longer: usize) -> bool {
    let lengths = c.draft.lengths();
    let rest: Vec<usize> = (0..4).filter(|k| ![shorter, longer].contains(k)).map(|k| lengths[k]).collect();
    let right = rest[0] == rest[1] && lengths[shorter] + lengths[longer] == 2 * rest[0];
    right && lengths[shorter] < lengths[longer] && !c.has(Reason::BrokenOff)
}

/// The ids are as long as the other list, and the two that are left are alike too, but not so long.
pub fn two_by_two(c: &Coverage, other: usize) -> bool {
    let lengths = c.draft.lengths();
    let rest: Vec<usize> = (1..4).filter(|k| *k != other).map(|k| lengths[k]).collect();
    let alike = lengths[0] == lengths[other] && rest[0] == rest[1];
    alike && lengths[0] != rest[0] && !c.has(Reason::BrokenOff)
}

/// Only so many numbers of the last triangle are there; the sum is right without it, or with it.
pub fn broken_off(c: &Coverage, some: usize, counted: bool) -> bool {
    c.refused_for(Reason::BrokenOff)
        && c.draft.numbers.len() % NUMBERS == some
        && sum_of(c.draft) == c.draft.triangles() as u64 + u64::from(counted)
}
