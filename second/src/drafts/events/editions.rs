//! What a wrong program could do unseen to the entries' last bytes.

use super::{recordings, Event};
use crate::drafts::coverage::Coverage;
use crate::files::coverage::Of;
use crate::footprint::stored::{FIRST_EDITION, HELD_BACK, SECOND_EDITION, TEST, TRAINING};
use crate::writer::Reason;

/// Looked at in good drafts only.
pub const WRITTEN_EDITIONS: [Event; 7] = [
    ("last byte 1", |c| of_second(c) > 0),
    ("last byte 1 of the only entry", |c| c.draft.lasts == [SECOND_EDITION]),
    ("last byte 1 of the first of several entries", |c| {
        recordings(c) > 1 && c.draft.lasts[0] == SECOND_EDITION
    }),
    ("last byte 1 of the last of several entries", |c| {
        recordings(c) > 1 && c.draft.lasts.last() == Some(&SECOND_EDITION)
    }),
    ("last byte 1 in every entry of several", |c| recordings(c) > 1 && of_second(c) == recordings(c)),
    ("last bytes 0 and 1 of tests", |c| of_second(c) > 0 && has(c, TEST, FIRST_EDITION)),
    ("last byte 1 of the 64th entry of 64", |c| recordings(c) == 64 && c.draft.lasts[63] == SECOND_EDITION),
];

pub const AT_LAST_BYTE: [Event; 22] = [
    ("14, last byte 1 of a training", is_of_no_test),
    ("14, last byte 1 of a training, the only entry", |c| is_of_no_test(c) && recordings(c) == 1),
    ("14, last byte 1 of a training, first of several entries", |c| {
        is_of_no_test(c) && recordings(c) > 1 && c.place() == 0
    }),
    ("14, last byte 1 of a training, middle entry", |c| is_of_no_test(c) && c.entry() == Of::Middle),
    ("14, last byte 1 of a training, last entry", |c| is_of_no_test(c) && c.entry() == Of::Last),
    ("14, last byte 1 of a training, the 64th entry of 64", |c| {
        is_of_no_test(c) && c.place() == 63 && recordings(c) == 64
    }),
    ("14, last byte 1 of a training, beyond the 64th entry", |c| is_of_no_test(c) && c.place() >= 64),
    ("14, last byte 1 of a training, and nothing else", |c| c.refused_alone_for(Reason::EditionOfNoTest)),
    ("14, last byte 1 of a training, behind a test's", |c| {
        is_of_no_test(c) && (0..c.place()).any(|k| c.draft.lasts[k] == SECOND_EDITION)
    }),
    ("14, last byte 1 of set 2", |c| is_with_set(c, HELD_BACK, HELD_BACK)),
    ("14, last byte 1 of a set over 2", |c| is_with_set(c, HELD_BACK + 1, u8::MAX)),
    ("14, last byte over 1 of a training", |c| is_over(c) && c.draft.sets[c.place()] == TRAINING),
    ("14, last byte over 1 of a test", |c| is_over(c) && c.draft.sets[c.place()] == TEST),
    ("14, last byte over 1, the 64th entry of 64", |c| is_over(c) && c.place() == 63 && recordings(c) == 64),
    ("14, last byte over 1, beyond the 64th entry", |c| is_over(c) && c.place() >= 64),
    ("14, last byte over 1, and nothing else", |c| c.refused_alone_for(Reason::LastByte)),
    ("14, last byte 2", |c| is_from(c, 2, 2)),
    ("14, last byte 3 to 127", |c| is_from(c, 3, 127)),
    ("14, last byte 128 or 129", |c| is_from(c, 128, 129)),
    ("14, last byte 130 to 254", |c| is_from(c, 130, 254)),
    ("14, last byte 255", |c| is_from(c, 255, 255)),
    ("15 at once, though there is such a last byte", |c| {
        (c.has(Reason::Lengths) || c.has(Reason::BrokenOff)) && is_any_in(c)
    }),
];

/// Where the last byte is looked at before what else is wrong, and where behind it.
pub const ORDERS: [Event; 13] = [
    ("14 for the last byte before 16 of the same entry", |c| is_either(c) && c.has_at(Reason::Id, c.place())),
    ("14 for last byte 1 before 16 of the same entry", |c| {
        is_of_no_test(c) && c.has_at(Reason::Id, c.place())
    }),
    ("14 for the last byte before 16 of the next entry", |c| {
        is_either(c) && c.has_at(Reason::Id, c.place() + 1)
    }),
    ("16 before 14 for the last byte of the next entry", |c| {
        c.refused_for(Reason::Id) && is_at(c, c.place() + 1)
    }),
    ("16 of an entry with a last byte of 1", |c| {
        c.refused_for(Reason::Id) && c.draft.lasts[c.place()] == SECOND_EDITION
    }),
    ("14 for no triangles and the last byte of one entry", |c| {
        c.refused_for(Reason::NoTriangles) && is_at(c, c.place())
    }),
    ("14 for the set and the last byte of one entry", |c| c.refused_for(Reason::Set) && is_at(c, c.place())),
    ("14 for the last byte before 15 for the sum", |c| is_either(c) && c.has(Reason::Sum)),
    ("14 for the last byte before 17", |c| is_either(c) && c.has(Reason::Range)),
    ("14 for the last byte before 18", |c| is_either(c) && c.has(Reason::ZeroArea)),
    ("14 for the last byte before 13", |c| is_either(c) && c.has(Reason::TooManyRecordings)),
    ("14 for the last byte before 19 for the length", |c| is_either(c) && c.has(Reason::TooLong)),
    ("13, 65 recordings or more with a last byte of 1", |c| {
        c.refused_alone_for(Reason::TooManyRecordings) && of_second(c) > 0
    }),
];

fn of_second(c: &Coverage) -> usize {
    c.draft.lasts.iter().filter(|last| **last == SECOND_EDITION).count()
}

fn has(c: &Coverage, set: u8, last: u8) -> bool {
    (0..recordings(c)).any(|k| (c.draft.sets[k], c.draft.lasts[k]) == (set, last))
}

/// Refused for a last byte that tests may have: all that is no test and has a set that is written is training.
fn is_of_no_test(c: &Coverage) -> bool {
    c.refused_for(Reason::EditionOfNoTest)
}

fn is_over(c: &Coverage) -> bool {
    c.refused_for(Reason::LastByte)
}

fn is_either(c: &Coverage) -> bool {
    is_of_no_test(c) || is_over(c)
}

fn is_from(c: &Coverage, least: u8, most: u8) -> bool {
    is_over(c) && (least..=most).contains(&c.draft.lasts[c.place()])
}

/// Refused for the set, which has a last byte of 1 beside it.
fn is_with_set(c: &Coverage, least: u8, most: u8) -> bool {
    let (refused, k) = (c.refused_for(Reason::Set), c.place());
    refused && (least..=most).contains(&c.draft.sets[k]) && c.draft.lasts[k] == SECOND_EDITION
}

fn is_at(c: &Coverage, k: usize) -> bool {
    c.has_at(Reason::LastByte, k) || c.has_at(Reason::EditionOfNoTest, k)
}

fn is_any_in(c: &Coverage) -> bool {
    c.has(Reason::LastByte) || c.has(Reason::EditionOfNoTest)
}
