//! A test and a training recording as the second edition weighs them, and as programs would that go about it
//! in another way.

use crate::decision::decide;
use crate::footprint::stored::{triangle, TRIANGLE};
use crate::triangles::VALUES;

/// No refused pair is among them: no file has one.
pub struct Weighed {
    /// Which test and training triangle overlap, and in what area, in the order in which they are tested.
    overlaps: Vec<([usize; 2], f64)>,
    /// e of every triangle of the test recording, and then of the training recording.
    crosses: [Vec<f64>; 2],
}

/// Whether it is a leak to whoever goes about it so.
pub type OtherWay = (&'static str, fn(&Weighed) -> bool);

pub const OTHER_WAYS: [OtherWay; 23] = [
    ("any overlap", |w| !w.overlaps.is_empty()),
    ("the limit itself as well", |w| 100.0 * w.sum() >= w.own()),
    ("the own area through 100", |w| w.sum() > w.own() / 100.0),
    ("the own area times 0.01", |w| w.sum() > w.own() * 0.01),
    ("the sum through the own area", |w| w.sum() / w.own() > 0.01),
    ("every area times 100", |w| added(w.areas().map(|area| 100.0 * area)) > w.own()),
    ("100 times the sum, not rounded", |w| 100 * fixed(w.sum()) > fixed(w.own())),
    ("no sum rounded", |w| 100 * w.areas().map(fixed).sum::<i128>() > w.exact_own()),
    ("areas from the last to the first", |w| above(added(w.areas().rev()), w.own())),
    ("areas from the smallest on", |w| above(added(w.sorted().into_iter()), w.own())),
    ("areas from the largest on", |w| above(added(w.sorted().into_iter().rev()), w.own())),
    ("training triangles in the outer loop", |w| above(added(w.turned().map(|one| one.1)), w.own())),
    ("sums of test triangles added", |w| above(added(w.sums_along(0).into_iter()), w.own())),
    ("sums of training triangles added", |w| above(added(w.sums_along(1).into_iter()), w.own())),
    ("one test triangle by itself", |w| above(largest(w.sums_along(0).into_iter()), w.own())),
    ("one triangle pair by itself", |w| above(largest(w.areas()), w.own())),
    ("the own area not rounded", |w| 2 * fixed(100.0 * w.sum()) > 2 * w.exact_own()),
    ("the own area from the last to the first", |w| above(w.sum(), added(w.sizes(0).rev()) / 2.0)),
    ("e with its sign", |w| above(w.sum(), added(w.crosses[0].iter().copied()) / 2.0)),
    ("e with its sign, and then the sum without", |w| {
        above(w.sum(), added(w.crosses[0].iter().copied()).abs() / 2.0)
    }),
    ("the own area not halved", |w| above(w.sum(), added(w.sizes(0)))),
    ("the own area of overlapping triangles alone", |w| above(w.sum(), w.own_of_overlapping())),
    ("the training recording's own area", |w| above(w.sum(), added(w.sizes(1)) / 2.0)),
];

impl Weighed {
    pub fn of(test: &[u8], training: &[u8]) -> Weighed {
        let mut overlaps = Vec::new();
        let mut values = [0.0; VALUES];
        for (i, u) in test.chunks_exact(TRIANGLE).enumerate() {
            values[..6].copy_from_slice(&triangle(u).map(f64::from));
            for (j, v) in training.chunks_exact(TRIANGLE).enumerate() {
                values[6..].copy_from_slice(&triangle(v).map(f64::from));
                let decision = decide(&values);
                if decision.overlaps() {
                    overlaps.push(([i, j], decision.area));
                }
            }
        }
        Weighed { overlaps, crosses: [test, training].map(crosses_of) }
    }

    pub fn pairs(&self) -> usize {
        self.overlaps.len()
    }

    pub fn sum(&self) -> f64 {
        added(self.areas())
    }

    pub fn own(&self) -> f64 {
        added(self.sizes(0)) / 2.0
    }

    pub fn leak(&self) -> bool {
        above(self.sum(), self.own())
    }

    pub fn at_the_limit(&self) -> bool {
        100.0 * self.sum() == self.own()
    }

    /// Whether somebody who rounds nothing is at the limit too.
    pub fn truly_at_the_limit(&self) -> bool {
        100 * self.areas().map(fixed).sum::<i128>() == self.exact_own()
    }

    /// How far from the limit, as a part of the own area; above it or below.
    pub fn beyond(&self) -> f64 {
        (100.0 * self.sum() - self.own()) / self.own()
    }

    /// How many of the overlapping pairs it takes until the sum is so large.
    pub fn leaks_after(&self) -> Option<usize> {
        let (mut sum, own) = (0.0, self.own());
        let mut areas = self.areas();
        areas.position(|area| {
            sum += area;
            above(sum, own)
        })
    }

    pub fn of_both_orientations(&self) -> bool {
        let crosses = &self.crosses[0];
        crosses.iter().any(|e| *e > 0.0) && crosses.iter().any(|e| *e < 0.0)
    }

    /// Whether the own area is not what it truly is.
    pub fn own_is_rounded(&self) -> bool {
        fixed(self.own()) != self.exact_own()
    }

    fn areas(&self) -> impl DoubleEndedIterator<Item = f64> + ExactSizeIterator + '_ {
        self.overlaps.iter().map(|(_, area)| *area)
    }

    /// The crosses without their signs.
    fn sizes(&self, side: usize) -> impl DoubleEndedIterator<Item = f64> + '_ {
        self.crosses[side].iter().map(|e| e.abs())
    }

    fn sorted(&self) -> Vec<f64> {
        let mut areas: Vec<f64> = self.areas().collect();
        areas.sort_by(|one, other| one.partial_cmp(other).expect("areas are numbers"));
        areas
    }

    /// All training triangles in turn, each with the test triangles.
    fn turned(&self) -> impl Iterator<Item = ([usize; 2], f64)> {
        let mut overlaps = self.overlaps.clone();
        overlaps.sort_by_key(|([i, j], _)| [*j, *i]);
        overlaps.into_iter()
    }

    /// Of each triangle of the test recording, or of the training recording, that overlaps any.
    fn sums_along(&self, side: usize) -> Vec<f64> {
        let mut sums = vec![0.0; self.crosses[side].len()];
        self.overlaps.iter().for_each(|(pair, area)| sums[pair[side]] += area);
        sums
    }

    fn own_of_overlapping(&self) -> f64 {
        let mut overlaps = vec![false; self.crosses[0].len()];
        self.overlaps.iter().for_each(|([i, _], _)| overlaps[*i] = true);
        added(self.sizes(0).zip(overlaps).filter(|one| one.1).map(|one| one.0)) / 2.0
    }

    fn exact_own(&self) -> i128 {
        self.sizes(0).map(fixed).sum::<i128>() / 2
    }
}

fn above(sum: f64, own: f64) -> bool {
    100.0 * sum > own
}

fn largest(values: impl Iterator<Item = f64>) -> f64 {
    values.fold(0.0, f64::max)
}

/// From 0.0, and rounded at every step.
fn added(values: impl Iterator<Item = f64>) -> f64 {
    values.fold(0.0, |sum, value| sum + value)
}

/// In parts of 2^−56: without loss from 0.0002 on, and room for the sum of all that a file can have.
fn fixed(value: f64) -> i128 {
    (value * (1u64 << 56) as f64) as i128
}

fn crosses_of(part: &[u8]) -> Vec<f64> {
    let cross = |[x0, y0, x1, y1, x2, y2]: [i64; 6]| (x1 - x0) * (y2 - y0) - (y1 - y0) * (x2 - x0);
    part.chunks_exact(TRIANGLE).map(|bytes| cross(triangle(bytes).map(i64::from)) as f64).collect()
}

#[cfg(test)]
mod tests {
    use super::*;
    use crate::footprint::lines_of;
    use crate::footprint::stored::TEST;
    use crate::leaks::{counts_of, own_area, Rule};
    use crate::lists::{of_set, trainings, CLASSES};
    use crate::random::Random;

    /// Two ways to the same answer.
    #[test]
    fn as_the_rules_have_it() {
        let mut random = Random::new(21);
        for class in CLASSES.iter().cycle().take(400) {
            let file = class.file(&mut random);
            let lines = lines_of(&file).unwrap_or_default();
            for test in of_set(&lines, TEST).take(3) {
                let part = test.part(&file);
                for training in trainings(&lines).take(3) {
                    let weighed = Weighed::of(part, training.part(&file));
                    let counts = counts_of(part, training.part(&file));
                    assert_eq!(weighed.sum().to_bits(), counts.area.to_bits(), "{}", class.name());
                    assert_eq!(weighed.own(), own_area(part), "{}", class.name());
                    assert_eq!(weighed.leak(), counts.leak(Rule::MoreThanASliver(own_area(part))));
                }
            }
        }
    }
}
