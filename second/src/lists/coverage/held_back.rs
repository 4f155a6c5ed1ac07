//! What the recordings that are stored as held back meet, and what a program would find that took them for
//! tests.

use crate::footprint::stored::{Line, HELD_BACK, TEST, TRAINING};
use crate::leaks::{counts_of, Counts};
use crate::lists::of_set;

/// Whether there is one such.
#[derive(Default)]
pub struct HeldBack {
    /// It overlaps a test; or only touches some.
    pub overlaps: bool,
    pub only_touches: bool,
    /// It overlaps one test, and touches another.
    pub overlaps_and_touches: bool,
    /// It is apart from all tests, with a box that is near one; or with none.
    pub apart: bool,
    pub far: bool,
    /// It is apart from all tests, and overlaps or touches one that is stored as training.
    pub overlaps_training_only: bool,
    pub touches_training_only: bool,
    /// It overlaps another one; and is apart from all tests.
    pub overlaps_another: bool,
    pub overlaps_another_only: bool,
    /// As a test it would leak or only touch, or its triangles would be tested.
    pub leaks_as_test: bool,
    pub touches_as_test: bool,
    pub tested_as_test: bool,
}

impl HeldBack {
    pub fn among(file: &[u8], lines: &[Line]) -> HeldBack {
        let mut held_back = HeldBack::default();
        of_set(lines, HELD_BACK).for_each(|line| held_back.look_at(line, file, lines));
        held_back
    }

    fn look_at(&mut self, line: &Line, file: &[u8], lines: &[Line]) {
        let part = line.part(file);
        let with_tests: Vec<Counts> =
            of_set(lines, TEST).map(|test| counts_of(test.part(file), part)).collect();
        let has = |are: fn(Counts) -> bool| with_tests.iter().any(|counts| are(*counts));
        let (overlaps, touches) = (has(Counts::overlap), has(Counts::only_touch));
        self.overlaps |= overlaps;
        self.only_touches |= touches && !overlaps;
        self.overlaps_and_touches |= touches && overlaps;
        let apart = !with_tests.is_empty() && !overlaps && !touches;
        let near = has(|counts| counts.tested > 0);
        self.apart |= apart && near;
        self.far |= apart && !near;
        for training in of_set(lines, TRAINING) {
            let counts = counts_of(part, training.part(file));
            self.overlaps_training_only |= apart && counts.overlap();
            self.touches_training_only |= apart && counts.only_touch();
            self.leaks_as_test |= counts.overlap();
            self.touches_as_test |= counts.only_touch();
            self.tested_as_test |= counts.tested > 0;
        }
        for other in of_set(lines, HELD_BACK).filter(|other| other.id != line.id) {
            let overlaps = counts_of(part, other.part(file)).overlap();
            self.overlaps_another |= overlaps;
            self.overlaps_another_only |= apart && overlaps;
        }
    }
}
