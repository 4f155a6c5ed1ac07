//! Every fault of a draft, not only the one for which it is refused.

use std::collections::HashSet;

use super::draft::Draft;
use crate::files::shapes::cross;
use crate::footprint::{in_range, MOST_BYTES, MOST_RECORDINGS};
use crate::writer::{Reason, NUMBERS};

/// The refusals in the order of the tests, each with all its reasons. 15 stands at two places.
pub const STAGES: [(&str, &[Reason]); 8] = [
    ("15 at once", &[Reason::Lengths, Reason::BrokenOff]),
    ("14", &[Reason::NoTriangles, Reason::Set, Reason::LastByte, Reason::EditionOfNoTest]),
    ("16", &[Reason::Id]),
    ("15 for the sum", &[Reason::Sum]),
    ("17", &[Reason::Range]),
    ("18", &[Reason::ZeroArea]),
    ("13", &[Reason::TooManyRecordings]),
    ("19", &[Reason::TooLong, Reason::RoomTooShort]),
];

#[derive(Clone, Copy, Debug, PartialEq, Eq)]
pub struct Fault {
    pub reason: Reason,
    /// Which entry it is in, or which triangle; 0 for all others.
    pub at: usize,
}

impl Fault {
    /// Its place among the stages.
    pub fn stage(&self) -> usize {
        let found = STAGES.iter().position(|stage| stage.1.contains(&self.reason));
        found.expect("every reason has its stage")
    }
}

/// In the order of the tests, so that the first of them is the refusal. Behind lists of different
/// lengths they are what a program would find that went on with them. A room that is too short is no
/// fault of the draft.
pub fn faults_in(draft: &Draft) -> Vec<Fault> {
    let mut faults = Vec::new();
    let mut look = |wrong: bool, reason: Reason, at: usize| {
        if wrong {
            faults.push(Fault { reason, at });
        }
    };
    let lengths = draft.lengths();
    look(lengths.iter().any(|length| *length != lengths[0]), Reason::Lengths, 0);
    look(draft.numbers.len() % NUMBERS > 0, Reason::BrokenOff, 0);
    look_at_recordings(draft, &mut look);
    look(sum_of(draft) != draft.triangles() as u64, Reason::Sum, 0);
    for k in 0..draft.triangles() {
        let triangle = draft.triangle(k);
        look(!triangle.into_iter().all(in_range), Reason::Range, k);
        look(cross(triangle) == 0, Reason::ZeroArea, k);
    }
    look(draft.recordings() > MOST_RECORDINGS as usize, Reason::TooManyRecordings, 0);
    look(draft.length() > MOST_BYTES, Reason::TooLong, 0);
    faults
}

type Look<'a> = &'a mut dyn FnMut(bool, Reason, usize);

fn look_at_recordings(draft: &Draft, look: Look) {
    let mut seen = HashSet::new();
    for k in 0..draft.recordings() {
        look(draft.counts[k] == 0, Reason::NoTriangles, k);
        look(draft.sets[k] > 1, Reason::Set, k);
        look(draft.lasts[k] > 1, Reason::LastByte, k);
        look(draft.lasts[k] == 1 && draft.sets[k] != 1, Reason::EditionOfNoTest, k);
        look(!seen.insert(draft.ids[k]), Reason::Id, k);
    }
}

/// Exact for every draft of a comparison: none has so many recordings that 64 bits would not do.
pub fn sum_of(draft: &Draft) -> u64 {
    draft.counts.iter().map(|count| u64::from(*count)).sum()
}
