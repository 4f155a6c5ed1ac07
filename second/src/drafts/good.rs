//! Drafts with nothing wrong but, at most, that they are too long or too many recordings.

use super::draft::Draft;
use crate::files::{good, shapes};
use crate::footprint::stored::{TEST, TRAINING};
use crate::random::Random;

/// Numbers of recordings that are at the limit, beside it or far beyond.
pub fn of_recordings(random: &mut Random, counts: &[usize]) -> Draft {
    let recordings = random.pick(counts);
    let most = if recordings > 66 { 1 } else { 2 };
    good::made(random, recordings, most, shapes::any).into()
}

pub fn of_one_set(random: &mut Random) -> Draft {
    let mut draft: Draft = good::few(random).into();
    draft.sets.fill(random.pick(&[TRAINING, TEST]));
    draft
}

/// Some of the tests, or all of them, or every recording: then all are tests.
pub fn of_the_second_edition(random: &mut Random) -> Draft {
    let draft = match random.below(4) {
        0 => good::one(random).into(),
        1 => of_recordings(random, &[63, 64, 64]),
        _ => good::few(random).into(),
    };
    in_the_second_edition(draft, random)
}

/// The same of any draft.
pub fn in_the_second_edition(mut draft: Draft, random: &mut Random) -> Draft {
    if random.once_in(3) {
        draft.sets.fill(TEST);
    }
    let all = random.once_in(2);
    for (set, last) in draft.sets.iter().zip(&mut draft.lasts) {
        *last = u8::from(*set == TEST && (all || random.once_in(2)));
    }
    draft
}

/// A recording whose count takes two bytes, before or behind others.
pub fn large_count(random: &mut Random) -> Draft {
    let triangle = shapes::any(random);
    let total = 256 + random.below(600);
    let recordings = 1 + random.below(3);
    good::filled(random, recordings, total, |_| triangle).into()
}

/// As long as a file can be: 65,532 bytes, by few recordings or by many.
pub fn longest(random: &mut Random) -> Draft {
    let some = 2 + 2 * random.below(30);
    let recordings = random.pick(&[2, 64, some]);
    filled(random, recordings, good::most_triangles(recordings))
}

/// Twelve bytes more: an odd number of recordings, and one triangle more than fit beside it.
pub fn just_too_long(random: &mut Random) -> Draft {
    let some = 5 + 2 * random.below(29);
    let recordings = random.pick(&[1, 3, 63, 63, some, some]);
    filled(random, recordings, good::most_triangles(recordings) + 1)
}

/// One or two triangles fewer than fit, or some more.
pub fn about_too_long(random: &mut Random) -> Draft {
    let recordings = 1 + random.below(64);
    let more = random.pick(&[0, 1, 2, 3, 4, 5, 50]);
    filled(random, recordings, good::most_triangles(recordings) - 2 + more)
}

/// So many triangles too many that it stays too long if one or a few of them go.
pub fn far_too_long(random: &mut Random) -> Draft {
    let some = 2 + random.below(63);
    let recordings = random.pick(&[2, 64, some]);
    let more = random.pick(&[100, 1_000]);
    filled(random, recordings, good::most_triangles(recordings) + more)
}

/// The same few shapes again and again: thousands of new ones would take their time.
fn filled(random: &mut Random, recordings: usize, triangles: usize) -> Draft {
    let some: Vec<_> = (0..20).map(|_| shapes::any(random)).collect();
    good::filled(random, recordings, triangles, |r| r.pick(&some)).into()
}

/// What a fault is planted in: mostly short, so that faults come close to one another.
pub fn any(random: &mut Random) -> Draft {
    match random.below(12) {
        0 => of_recordings(random, &[63, 64]),
        1 => good::several(random).into(),
        2 | 3 => good::one(random).into(),
        _ => good::few(random).into(),
    }
}
