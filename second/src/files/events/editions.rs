//! What a wrong program could do unseen to the entries' last bytes.

use super::Event;
use crate::files::coverage::Coverage;
use crate::footprint::stored::{Line, FIRST_EDITION, HELD_BACK, SECOND_EDITION, TEST, TRAINING};
use crate::footprint::Reason;

/// Looked at in good files only.
pub const ACCEPTED_EDITIONS: [Event; 10] = [
    ("last byte 1", |c| any(c, is_second)),
    ("last byte 0 in every entry of a test", |c| any(c, is_test) && !any(c, is_second)),
    ("last byte 1 of the only recording", |c| c.recordings() == 1 && any(c, is_second)),
    ("last byte 1 of the first of several", |c| c.recordings() > 1 && is_second(&c.lines()[0])),
    ("last byte 1 of the last of several", |c| {
        c.recordings() > 1 && c.lines().last().map_or(false, is_second)
    }),
    ("last byte 1 in every entry of several", |c| c.recordings() > 1 && c.lines().iter().all(is_second)),
    ("last bytes 0 and 1 of tests", |c| {
        any(c, is_second) && any(c, |line| line.set == TEST && line.last == FIRST_EDITION)
    }),
    ("last byte 1 beside training", |c| any(c, is_second) && any(c, |line| line.set == TRAINING)),
    ("last byte 1 beside what is held back", |c| any(c, is_second) && any(c, |line| line.set == HELD_BACK)),
    ("last byte 1 of the last of 64", |c| c.recordings() == 64 && is_second(&c.lines()[63])),
];

pub const AT_LAST_BYTE: [Event; 17] = [
    ("14, last byte 1 of a training alone", |c| is_alone(c, |line| line.set == TRAINING && line.last == 1)),
    ("14, last byte 1 of one held back alone", |c| {
        is_alone(c, |line| line.set == HELD_BACK && line.last == 1)
    }),
    ("14, last byte 1 of a set over 2", |c| {
        c.number() == 14 && c.refused_line().set > HELD_BACK && c.refused_line().last == 1
    }),
    ("14, last byte over 1 of a training alone", |c| {
        is_alone(c, |line| line.set == TRAINING && line.last > 1)
    }),
    ("14, last byte over 1 of a test alone", |c| is_alone(c, |line| line.set == TEST && line.last > 1)),
    ("14, last byte over 1 of one held back alone", |c| {
        is_alone(c, |line| line.set == HELD_BACK && line.last > 1)
    }),
    ("14, last byte 2 of a test alone", |c| is_alone(c, |line| line.set == TEST && line.last == 2)),
    ("14, last byte 2 alone", |c| is_alone(c, |line| line.last == 2)),
    ("14, last byte 3 alone", |c| is_alone(c, |line| line.last == 3)),
    ("14, last byte 4 to 127 alone", |c| is_alone(c, |line| (4..128).contains(&line.last))),
    ("14, last byte 128 alone", |c| is_alone(c, |line| line.last == 128)),
    ("14, last byte 129 alone", |c| is_alone(c, |line| line.last == 129)),
    ("14, last byte 255 alone", |c| is_alone(c, |line| line.last == 255)),
    ("14, last byte 1 behind a test that has it too", |c| {
        c.refused_for(Reason::EditionOfNoTest) && before(c).iter().any(is_second)
    }),
    ("16, of a test with last byte 1", |c| c.number() == 16 && is_second(&c.refused_line())),
    ("16, behind a test with last byte 1", |c| c.number() == 16 && before(c).iter().any(is_second)),
    ("15, 17 or 18 with a last byte of 1", |c| {
        [15, 17, 18].contains(&c.number()) && c.recordings() <= 64 && any(c, is_second)
    }),
];

pub fn is_second(line: &Line) -> bool {
    is_test(line) && line.last == SECOND_EDITION
}

fn is_test(line: &Line) -> bool {
    line.set == TEST
}

fn any(c: &Coverage, is: fn(&Line) -> bool) -> bool {
    c.lines().iter().any(is)
}

/// Refused for its last byte and for nothing else at that entry.
fn is_alone(c: &Coverage, is: fn(&Line) -> bool) -> bool {
    let for_it = c.refused_for(Reason::LastByte) || c.refused_for(Reason::EditionOfNoTest);
    for_it && c.alone() && is(&c.refused_line())
}

/// The entries before the refused one.
fn before(c: &Coverage) -> Vec<Line> {
    let mut lines = c.lines();
    lines.truncate(c.refused_entry());
    lines
}
