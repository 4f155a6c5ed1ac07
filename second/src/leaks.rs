//! A footprint file and lent room go in; the list of test recordings whose triangles overlap those of a
//! training recording comes out, at the front of the room, how many others touch, how many triangle pairs
//! were given to the triangle rules, and how many recordings are stored as held back. A test says itself
//! whether every overlap is a leak or only more than a sliver of one. Everything follows the rules, pair by
//! pair.

#[cfg(test)]
mod worked;

use std::fmt::Write;

use crate::decision::{by_the_triangle_rules, Decision};
use crate::footprint::stored::{triangle, Line, HELD_BACK, SECOND_EDITION, TEST, TRAINING, TRIANGLE};
use crate::footprint::{lines_of, Refused};
use crate::triangles::VALUES;

const ROOM_TOO_SHORT: u32 = 7;

/// Laid out as the C interface's `meskelow_list`.
#[repr(C)]
#[derive(Clone, Copy, Debug, Default, PartialEq, Eq)]
pub struct List {
    pub number: u32,
    pub place: u32,
    /// Bytes of the whole list.
    pub length: usize,
    /// Its lines but the first and the two closing ones.
    pub leaks: u32,
    /// The number of the first closing line.
    pub touching: u32,
    /// How many triangle pairs of test and training recordings have boxes that share a point. No line says
    /// it.
    pub tested: u32,
    /// The last line's number.
    pub formerly_held_back: u32,
}

/// A test and a training recording that leak, by their ids.
#[derive(Clone, Copy, Debug, PartialEq, Eq)]
pub struct Leak {
    pub test: u32,
    pub training: u32,
    /// How many triangle pairs overlap.
    pub pairs: u32,
}

/// A list before it is known whether it fits.
#[derive(Debug)]
pub struct Whole {
    pub leaks: Vec<Leak>,
    /// How many pairs of recordings touch and do not overlap.
    pub touching: u32,
    /// How many triangle pairs were given to the triangle rules.
    pub tested: u32,
    /// How many recordings are stored as held back, whatever they meet.
    pub formerly_held_back: u32,
    pub text: String,
}

/// Whether a list looks at it beside the tests. Teams have trained on what was to be held back.
pub fn is_training(line: &Line) -> bool {
    [TRAINING, HELD_BACK].contains(&line.set)
}

/// What makes an overlap of a test and a training recording a leak.
#[derive(Clone, Copy, Debug, PartialEq)]
pub enum Rule {
    /// By the first edition it always is one.
    Any,
    /// By the second it is one if it is more than a hundredth of this, the test recording's own area.
    MoreThanASliver(f64),
}

impl Rule {
    /// The one that a test recording of a good file goes by.
    pub fn of(test: &Line, file: &[u8]) -> Rule {
        if test.last == SECOND_EDITION {
            Rule::MoreThanASliver(own_area(test.part(file)))
        } else {
            Rule::Any
        }
    }
}

/// Of a recording's triangles, whichever way round they are: half of what their crosses add up to.
pub fn own_area(part: &[u8]) -> f64 {
    let mut sum = 0.0;
    for bytes in part.chunks_exact(TRIANGLE) {
        let e = e_of(triangle(bytes).map(f64::from));
        sum += if e < 0.0 { -e } else { e };
    }
    sum / 2.0
}

/// The e that the triangle rules have of a test triangle.
fn e_of([x0, y0, x1, y1, x2, y2]: [f64; 6]) -> f64 {
    (x1 - x0) * (y2 - y0) - (y1 - y0) * (x2 - x0)
}

/// Of the triangle pairs of two recordings.
#[derive(Clone, Copy, Debug, Default, PartialEq)]
pub struct Counts {
    pub tested: u32,
    pub overlapping: u32,
    pub touching: u32,
    /// How many of those that overlap do so because the triangle rules refuse them. They have no area.
    pub refused: u32,
    /// What the areas of the others that overlap add up to, one after the other.
    pub area: f64,
}

impl Counts {
    /// A pair that the triangle rules refuse was given to them; one with far boxes was not, and is apart.
    fn with(self, pair: Option<Decision>) -> Counts {
        let pair = match pair {
            None => return self,
            Some(pair) => pair,
        };
        let refused = pair.number != 0;
        let has_area = pair.overlaps() && !refused;
        Counts {
            tested: self.tested + 1,
            overlapping: self.overlapping + u32::from(pair.overlaps()),
            touching: self.touching + u32::from(pair.touches()),
            refused: self.refused + u32::from(refused),
            area: if has_area { self.area + pair.area } else { self.area },
        }
    }

    pub fn overlap(self) -> bool {
        self.overlapping > 0
    }

    /// By the rule that the test recording goes by.
    pub fn leak(self, rule: Rule) -> bool {
        match rule {
            Rule::Any => self.overlap(),
            Rule::MoreThanASliver(own_area) => self.refused > 0 || 100.0 * self.area > own_area,
        }
    }

    /// Whatever the rule: an overlap that is no leak is none of these either.
    pub fn only_touch(self) -> bool {
        self.touching > 0 && !self.overlap()
    }
}

/// Never inlined, so that a caller pays for a call here as for one of a library.
#[inline(never)]
pub fn leaks(file: &[u8], room: &mut [u8]) -> List {
    written(&whole_list(file), room)
}

pub fn whole_list(file: &[u8]) -> Result<Whole, Refused> {
    let lines = lines_of(file)?;
    let (mut leaks, mut touching, mut tested) = (Vec::new(), 0, 0);
    for test in lines.iter().filter(|line| line.set == TEST) {
        let rule = Rule::of(test, file);
        for training in lines.iter().filter(|line| is_training(line)) {
            let counts = counts_of(test.part(file), training.part(file));
            if counts.leak(rule) {
                leaks.push(Leak { test: test.id, training: training.id, pairs: counts.overlapping });
            }
            touching += u32::from(counts.only_touch());
            tested += counts.tested;
        }
    }
    let formerly_held_back = lines.iter().filter(|line| line.set == HELD_BACK).count() as u32;
    let text = text_of(&leaks, touching, formerly_held_back);
    Ok(Whole { leaks, touching, tested, formerly_held_back, text })
}

/// The second half of `leaks`: a refused file answers for itself, then the room is measured, and
/// only then written to.
pub fn written(whole: &Result<Whole, Refused>, room: &mut [u8]) -> List {
    let whole = match whole {
        Ok(whole) => whole,
        Err(refused) => {
            return List { number: refused.reason.number(), place: refused.place, ..List::default() }
        }
    };
    let text = whole.text.as_bytes();
    if room.len() < text.len() {
        return List { number: ROOM_TOO_SHORT, ..List::default() };
    }
    room[..text.len()].copy_from_slice(text);
    List {
        number: 0,
        place: 0,
        length: text.len(),
        leaks: whole.leaks.len() as u32,
        touching: whole.touching,
        tested: whole.tested,
        formerly_held_back: whole.formerly_held_back,
    }
}

/// Every triangle of the one part with every one of the other, whatever came before.
pub fn counts_of(of_u: &[u8], of_v: &[u8]) -> Counts {
    let mut values = [0.0; VALUES];
    let mut counts = Counts::default();
    for u in of_u.chunks_exact(TRIANGLE) {
        values[..6].copy_from_slice(&triangle(u).map(f64::from));
        for v in of_v.chunks_exact(TRIANGLE) {
            values[6..].copy_from_slice(&triangle(v).map(f64::from));
            counts = counts.with(by_the_triangle_rules(&values));
        }
    }
    counts
}

fn text_of(leaks: &[Leak], touching: u32, formerly_held_back: u32) -> String {
    let mut text = format!("leaks {}\n", leaks.len());
    let mut add = |line: std::fmt::Arguments| {
        text.write_fmt(line).expect("a string takes all that is written to it");
    };
    for Leak { test, training, pairs } in leaks {
        add(format_args!("test {test} train {training} pairs {pairs}\n"));
    }
    add(format_args!("touching {touching}\n"));
    add(format_args!("formerly held back {formerly_held_back}\n"));
    text
}
