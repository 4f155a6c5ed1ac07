//! Drafts with several faults at once: which one is named shows the order of the tests.

use super::draft::Draft;
use super::good;
use super::spoils::{self, Spoil, SPOILS};
use crate::files;
use crate::random::Random;

pub fn one(random: &mut Random, spoil: Spoil) -> Draft {
    spoiled(good::any(random), random, spoil)
}

/// In a draft of 64 recordings, or of so many that the fault may lie well beyond the 64th.
pub fn one_of_many(random: &mut Random, recordings: &[usize], spoils: &[Spoil]) -> Draft {
    let spoil = random.pick(spoils);
    spoiled(good::of_recordings(random, recordings), random, spoil)
}

fn spoiled(mut draft: Draft, random: &mut Random, spoil: Spoil) -> Draft {
    spoil(&mut draft, random);
    draft
}

/// Every two stages in turn, as likely as any other two.
pub fn two(random: &mut Random) -> Draft {
    let mut stages: Vec<usize> = (0..SPOILS.len()).collect();
    random.shuffle(&mut stages);
    with(base(random), &stages[..2], random)
}

/// The set that is retired, and a fault of any other stage, or more triangles than a file can have.
pub fn held_back_and_another(random: &mut Random) -> Draft {
    let draft = with_another(random);
    spoiled(draft, random, spoils::held_back)
}

/// The same with a last byte in its place.
pub fn last_byte_and_another(random: &mut Random) -> Draft {
    let draft = with_another(random);
    let spoil = random.pick(&[spoils::last_byte as Spoil, spoils::edition_of_no_test]);
    spoiled(draft, random, spoil)
}

/// A fault of any stage but that of entries by themselves.
fn with_another(random: &mut Random) -> Draft {
    match random.pick(&[0, 2, 3, 4, 5, 6, 7]) {
        7 => good::far_too_long(random),
        stage => with(base(random), &[stage], random),
    }
}

pub fn the_same_twice(random: &mut Random) -> Draft {
    let stage = random.below(SPOILS.len());
    with(base(random), &[stage, stage], random)
}

/// 14 and 16, or 17 and 18, several times: within one entry or triangle, or in any order.
pub fn two_by_turns(random: &mut Random) -> Draft {
    let pair = random.pick(&[[1, 2], [4, 5]]);
    let stages: Vec<usize> = (0..2 + random.below(4)).map(|_| random.pick(&pair)).collect();
    with(base(random), &stages, random)
}

pub fn many(random: &mut Random) -> Draft {
    let stages: Vec<usize> = (0..3 + random.below(4)).map(|_| random.below(SPOILS.len())).collect();
    with(base(random), &stages, random)
}

/// No recordings, and triangles nevertheless, good ones or others.
pub fn none(random: &mut Random) -> Draft {
    let mut draft = Draft::default();
    (0..1 + random.below(3)).for_each(|_| spoils::sum(&mut draft, random));
    let stage = random.pick(&[0, 4, 5, 5]);
    if random.once_in(2) {
        spoils::any_of(stage, &mut draft, random);
    }
    draft
}

pub fn too_long(random: &mut Random) -> Draft {
    let draft = good::far_too_long(random);
    let stage = random.below(SPOILS.len());
    with(draft, &[stage], random)
}

fn with(mut draft: Draft, stages: &[usize], random: &mut Random) -> Draft {
    stages.iter().for_each(|stage| spoils::any_of(*stage, &mut draft, random));
    draft
}

/// Enough entries and triangles to have faults before and behind one another, and few enough to have them
/// in one.
fn base(random: &mut Random) -> Draft {
    match random.below(8) {
        0 => files::good::one(random).into(),
        1 => files::good::several(random).into(),
        _ => files::good::few(random).into(),
    }
}
