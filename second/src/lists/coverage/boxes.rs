//! A test and a training recording by the boxes around their triangles, and by their own, which are around
//! all of these.

use super::editions::Weighed;
use super::{of_set, trainings};
use crate::boxes::{boxes_of, Upright};
use crate::coverage::boxes::Boxes;
use crate::footprint::stored::{Line, SECOND_EDITION, TEST};
use crate::leaks::{counts_of, own_area, Counts, Rule};

pub struct Two {
    pub test: Outline,
    pub training: Outline,
    /// Which triangles have boxes that share a point, test and training, in the list's order.
    pub near: Vec<[usize; 2]>,
    pub counts: Counts,
    /// What the training recording is stored with.
    pub set: u8,
    /// Which test of the table it is, and the edition that it goes by.
    pub of: usize,
    pub edition: u8,
    /// The test recording's.
    pub own_area: f64,
    /// Whether an overlap of so much is no leak by the second edition.
    pub sliver: bool,
    /// Of an overlap with a test of the second edition.
    pub weighed: Option<Weighed>,
}

pub struct Outline {
    pub triangles: Vec<Upright>,
    pub own: Upright,
}

/// All of them, in the list's order.
pub fn twos_of<'a>(file: &'a [u8], lines: &'a [Line]) -> Vec<Two> {
    let with =
        |(k, test): (usize, &'a Line)| trainings(lines).map(move |training| Two::of(file, k, test, training));
    of_set(lines, TEST).enumerate().flat_map(with).collect()
}

impl Outline {
    fn of(part: &[u8]) -> Outline {
        let triangles = boxes_of(part);
        let own = Upright::around(&triangles);
        Outline { triangles, own }
    }

    /// The box that would be its own without one of several triangles.
    fn without(&self, k: usize) -> Upright {
        let others = self.triangles.iter().enumerate().filter(|(other, _)| *other != k);
        Upright::around(&others.map(|(_, triangle)| *triangle).collect::<Vec<_>>())
    }
}

impl Two {
    fn of(file: &[u8], of: usize, test: &Line, training: &Line) -> Two {
        let (set, edition) = (training.set, test.last);
        let (test, training) = (test.part(file), training.part(file));
        let counts = counts_of(test, training);
        let own_area = own_area(test);
        let sliver = counts.overlap() && !counts.leak(Rule::MoreThanASliver(own_area));
        let is_weighed = edition == SECOND_EDITION && counts.overlap();
        let weighed = is_weighed.then(|| Weighed::of(test, training));
        let (test, training) = (Outline::of(test), Outline::of(training));
        let mut near = Vec::new();
        for (i, u) in test.triangles.iter().enumerate() {
            near.extend(
                (0..training.triangles.len()).filter(|j| u.meets(&training.triangles[*j])).map(|j| [i, j]),
            );
        }
        Two { test, training, near, counts, set, of, edition, own_area, sliver, weighed }
    }

    pub fn own(&self) -> Boxes {
        Boxes::of(&self.test.own, &self.training.own)
    }

    pub fn pairs(&self) -> usize {
        self.test.triangles.len() * self.training.triangles.len()
    }

    /// Whether the boxes of two triangles lie so.
    pub fn some(&self, lie: impl Fn(&Boxes) -> bool) -> bool {
        let trainings = &self.training.triangles;
        self.test.triangles.iter().any(|u| trainings.iter().any(|v| lie(&Boxes::of(u, v))))
    }

    /// The test recording or the training recording.
    fn one(&self, side: usize) -> &Outline {
        [&self.test, &self.training][side]
    }

    pub fn triangles_of(&self, side: usize) -> usize {
        self.one(side).triangles.len()
    }

    /// The only triangle of the one recording that is near any of the other's.
    pub fn only_near(&self, side: usize) -> Option<usize> {
        let first = self.near.first()?[side];
        Some(first).filter(|only| self.near.iter().all(|pair| pair[side] == *only))
    }

    /// The same of several, where without it not even the recordings' own boxes would meet.
    pub fn only_reaching(&self, side: usize) -> Option<usize> {
        let several = self.triangles_of(side) > 2;
        let alone = |only: &usize| !self.one(side).without(*only).meets(&self.one(1 - side).own);
        self.only_near(side).filter(|only| several && alone(only))
    }

    /// Whether a triangle of the one recording has no more than a corner in common with the other's own box,
    /// and is near none of its triangles.
    pub fn at_an_empty_corner(&self, side: usize) -> bool {
        let near = |k: usize| self.near.iter().any(|pair| pair[side] == k);
        let own = self.one(1 - side).own;
        let mut triangles = self.one(side).triangles.iter().enumerate();
        triangles.any(|(k, triangle)| Boxes::of(triangle, &own).share_any_corner() && !near(k))
    }
}
