//! Files with several faults at once: which one is named shows the order of the tests.

use super::damage::{self, Damage, DAMAGES};
use super::draft::Draft;
use super::good;
use crate::random::Random;

pub fn one(random: &mut Random, damage: Damage) -> Vec<u8> {
    let mut draft = good::any(random);
    damage(&mut draft, random);
    draft.bytes()
}

pub fn one_in_largest(random: &mut Random) -> Vec<u8> {
    let mut draft = good::largest(random);
    damage::any_of(some_number(random), &mut draft, random);
    draft.bytes()
}

pub fn two(random: &mut Random) -> Vec<u8> {
    let mut draft = base(random);
    for number in [some_number(random), some_number(random)] {
        damage::any_of(number, &mut draft, random);
    }
    draft.bytes()
}

pub fn the_same_twice(random: &mut Random) -> Vec<u8> {
    let mut draft = base(random);
    let number = some_number(random);
    damage::any_of(number, &mut draft, random);
    damage::any_of(number, &mut draft, random);
    draft.bytes()
}

pub fn many(random: &mut Random) -> Vec<u8> {
    let mut draft = base(random);
    for _ in 0..3 + random.below(5) {
        let some = some_number(random);
        let number = random.pick(&[14, 14, 15, 16, 16, 17, 17, 18, 18, some]);
        damage::any_of(number, &mut draft, random);
    }
    draft.bytes()
}

pub fn too_long(random: &mut Random) -> Vec<u8> {
    let mut draft = good::too_long(random);
    if !random.once_in(4) {
        damage::any_of(some_number(random), &mut draft, random);
    }
    draft.bytes()
}

pub fn too_many(random: &mut Random) -> Vec<u8> {
    let mut draft = good::too_many(random);
    if random.once_in(3) {
        damage::any_of(some_number(random), &mut draft, random);
    }
    draft.bytes()
}

/// No recordings, and something before the table nevertheless.
pub fn table_of_none(random: &mut Random) -> Vec<u8> {
    let mut draft = good::none();
    damage::left_over(&mut draft, random);
    draft.bytes()
}

/// Enough entries and triangles to have faults before and behind one another.
fn base(random: &mut Random) -> Draft {
    match random.below(8) {
        0 => good::one(random),
        1 => good::several(random),
        _ => good::few(random),
    }
}

fn some_number(random: &mut Random) -> u32 {
    DAMAGES[random.below(DAMAGES.len())].0
}
