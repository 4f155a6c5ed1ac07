//! What a program could do unseen that does not take what is stored as held back for training, or that counts
//! it in another way. K is the last line's number.

use super::Event;
use crate::footprint::stored::{HELD_BACK, TEST, TRAINING};
use crate::leaks::Leak;
use crate::lists::coverage::Coverage;

pub const HELD_BACK_ONES: [Event; 38] = [
    ("K 0 of some recordings", |c| c.held_back() == 0 && !c.lines.is_empty()),
    ("K 1", |c| c.held_back() == 1),
    ("K 2 to 9", |c| (2..10).contains(&c.held_back())),
    ("K 10 to 62", |c| (10..63).contains(&c.held_back())),
    ("K 63, and one test", |c| c.held_back() == 63 && c.recordings_of(TEST) == 1),
    ("K 64", |c| c.held_back() == 64),
    ("no test beside them", |c| some(c) && c.recordings_of(TEST) == 0),
    ("nothing but tests beside them", only_training),
    ("nothing but tests beside them, and leak lines", |c| only_training(c) && !c.leaks().is_empty()),
    ("nothing but tests beside them, and touching ones", |c| only_training(c) && c.touching() > 0),
    ("nothing but trainings beside them", |c| {
        some(c) && c.recordings_of(TRAINING) > 0 && c.recordings_of(TEST) == 0
    }),
    ("tests and trainings beside them", |c| {
        some(c) && c.recordings_of(TRAINING) > 0 && c.recordings_of(TEST) > 0
    }),
    ("the same list as with set 0, but for the last line", some),
    ("in a line", |c| has_line(c, |_, _| true)),
    ("in all of several lines, beside trainings", |c| {
        c.recordings_of(TRAINING) > 0 && c.leaks().len() > 1 && c.leaks().iter().all(|leak| is_one(c, leak))
    }),
    ("in no line, beside lines", |c| some(c) && !c.leaks().is_empty() && !has_line(c, |_, _| true)),
    ("in a line, no other recording before it", |c| has_line(c, |c, leak| c.place_of(leak.training) == 0)),
    ("in a line, no other recording behind it", |c| {
        has_line(c, |c, leak| c.place_of(leak.training) + 1 == c.lines.len())
    }),
    ("in a line, N over 1", |c| has_line(c, |_, leak| leak.pairs > 1)),
    ("a line before a training's", |c| in_turn(c, &[true, false])),
    ("a line behind a training's", |c| in_turn(c, &[false, true])),
    ("a line between two trainings'", |c| in_turn(c, &[false, true, false])),
    ("two lines around a training's", |c| in_turn(c, &[true, false, true])),
    ("overlapping a test", |c| c.pairs.held_back.overlaps),
    ("only touching a test", |c| c.pairs.held_back.only_touches),
    ("overlapping one test and touching another", |c| c.pairs.held_back.overlaps_and_touches),
    ("apart from all tests, with a near box", |c| c.pairs.held_back.apart),
    ("far from all tests", |c| c.pairs.held_back.far),
    ("overlapping trainings only", |c| c.pairs.held_back.overlaps_training_only),
    ("touching trainings only", |c| c.pairs.held_back.touches_training_only),
    ("two that overlap", |c| c.pairs.held_back.overlaps_another),
    ("two that overlap, far from tests or apart", |c| c.pairs.held_back.overlaps_another_only),
    ("would leak as test", |c| c.pairs.held_back.leaks_as_test),
    ("would only touch as test", |c| c.pairs.held_back.touches_as_test),
    ("would be tested as test", |c| c.pairs.held_back.tested_as_test),
    ("all touching ones, beside trainings", |c| {
        c.recordings_of(TRAINING) > 0
            && c.touching() > 0
            && touching_of(c, HELD_BACK) == c.touching() as usize
    }),
    ("some of the touching ones", |c| touching_of(c, HELD_BACK) > 0 && touching_of(c, TRAINING) > 0),
    ("some of the tested pairs", |c| tested_of(c, HELD_BACK) > 0 && tested_of(c, TRAINING) > 0),
];

fn some(c: &Coverage) -> bool {
    c.held_back() > 0
}

/// The tests have no other recordings beside them.
fn only_training(c: &Coverage) -> bool {
    some(c) && c.recordings_of(TEST) > 0 && c.recordings_of(TRAINING) == 0
}

fn is_one(c: &Coverage, leak: &Leak) -> bool {
    c.lines[c.place_of(leak.training)].set == HELD_BACK
}

fn has_line(c: &Coverage, is: fn(&Coverage, &Leak) -> bool) -> bool {
    c.leaks().iter().any(|leak| is_one(c, leak) && is(c, leak))
}

/// Whether lines of one test follow one another that are of held back ones or not, in turn.
fn in_turn(c: &Coverage, held_back: &[bool]) -> bool {
    c.leaks().windows(held_back.len()).any(|lines| {
        lines.iter().all(|leak| leak.test == lines[0].test)
            && lines.iter().zip(held_back).all(|(leak, held_back)| is_one(c, leak) == *held_back)
    })
}

fn touching_of(c: &Coverage, set: u8) -> usize {
    c.twos.iter().filter(|two| two.set == set && two.counts.only_touch()).count()
}

fn tested_of(c: &Coverage, set: u8) -> usize {
    c.twos.iter().filter(|two| two.set == set).map(|two| two.near.len()).sum()
}
