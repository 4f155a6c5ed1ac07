//! Counts of what a comparison went through, and what it must have gone through.

mod boxes;

use std::collections::HashMap;

use crate::classes::CLASSES;
use crate::coverage::Coverage;
use crate::decision::{APART, OVERLAPPING, TOUCHING};
use crate::exact::Common;
use crate::triangles::ring::Place;
use crate::triangles::Refusal;
use boxes::BOXES;

const SIZES: [usize; 5] = [0, 3, 4, 5, 6];

const REFUSALS: [(Refusal, &str); 10] = [
    (Refusal::Length, "1, lengths"),
    (Refusal::Coordinate, "2, coordinate not finite"),
    (Refusal::OverflowAtD, "4 at d"),
    (Refusal::FlatV, "3, flat V"),
    (Refusal::OverflowAtE, "4 at e"),
    (Refusal::FlatU, "5, flat U"),
    (Refusal::OverflowAtParameter, "4 at a parameter"),
    (Refusal::OverflowAtPairTest, "4 at a pair test"),
    (Refusal::OverflowAtPosition, "4 at a position"),
    (Refusal::OverflowAtArea, "4 at the area"),
];

type Event = (&'static str, fn(&Coverage) -> bool);

/// Things that a wrong program could do unseen unless a pair brings them about.
const EVENTS: [Event; 11] = [
    ("refused at t's denominator", |c| c.denominator_overflowed),
    ("refused at Q - P", |c| c.refusal == Some(Refusal::OverflowAtPosition) && !c.denominator_overflowed),
    ("refused at a difference of the area", |c| {
        c.refusal == Some(Refusal::OverflowAtArea) && !c.area_product_overflowed()
    }),
    ("refused at a product of the area", Coverage::area_product_overflowed),
    ("unreached pair test overflows, two lines", |c| c.unreached_test_overflows(2)),
    ("unreached pair test overflows, three lines", |c| c.unreached_test_overflows(3)),
    ("position not in the ring overflows, denominator", |c| c.unreached_position_overflows(true)),
    ("position not in the ring overflows, Q - P", |c| c.unreached_position_overflows(false)),
    ("pair test of zero", |c| c.accepted() && c.pair_test_was_zero),
    ("t of -0.0", |c| c.accepted() && c.t_was_minus_zero),
    ("-0.0 in a position", |c| c.accepted() && c.position_had_minus_zero),
];

/// How pairs are decided, and where that is not what they truly are.
const DECISIONS: [Event; 15] = [
    ("apart", |c| c.decided_as(APART)),
    ("touching", |c| c.decided_as(TOUCHING)),
    ("overlapping", |c| c.decided_as(OVERLAPPING)),
    ("refused with 1", |c| c.decision.number == 1),
    ("refused with 2", |c| c.decision.number == 2),
    ("refused with 3", |c| c.decision.number == 3),
    ("refused with 4", |c| c.decision.number == 4),
    ("refused with 5", |c| c.decision.number == 5),
    ("decided, but with a room too short for a ring", |c| {
        c.refusal == Some(Refusal::Length) && c.decision.number == 0
    }),
    ("touching by half of a sum that is not zero", Coverage::halved_to_zero),
    ("touching, but truly overlapping", |c| c.decided_as(TOUCHING) && c.truly(Common::Area)),
    ("overlapping, but truly touching", |c| c.decided_as(OVERLAPPING) && c.truly(Common::Contact)),
    ("apart, but truly touching", |c| c.decided_as(APART) && c.truly(Common::Contact)),
    ("apart, but truly overlapping", |c| c.decided_as(APART) && c.truly(Common::Area)),
    ("not apart, but truly so", |c| !c.decided_as(APART) && c.truly(Common::Nothing)),
];

/// The table of how boxes lie.
pub const BOXES_TABLE: &str = "boxes";

pub struct Row {
    pub table: &'static str,
    pub name: String,
    pub count: usize,
}

pub struct Tally {
    pub rows: Vec<Row>,
    combinations: HashMap<u32, usize>,
}

impl Default for Tally {
    fn default() -> Self {
        let mut rows = Vec::new();
        let mut add = |table, name: String| rows.push(Row { table, name, count: 0 });
        CLASSES.iter().for_each(|class| add("class", class.name().to_string()));
        SIZES.iter().for_each(|n| add("n", n.to_string()));
        (0..15).for_each(|index| add("place", place_name(index)));
        REFUSALS.iter().for_each(|(_, name)| add("refusal", name.to_string()));
        EVENTS.iter().for_each(|(name, _)| add("event", name.to_string()));
        DECISIONS.iter().for_each(|(name, _)| add("decision", name.to_string()));
        BOXES.iter().for_each(|(name, _)| add(BOXES_TABLE, name.to_string()));
        Tally { rows, combinations: HashMap::new() }
    }
}

impl Tally {
    /// The rows that one pair counts for.
    pub fn rows_of(class: usize, coverage: &Coverage) -> Vec<usize> {
        let mut hit = Vec::with_capacity(32);
        hit.push(class);
        let sizes = CLASSES.len();
        let places = sizes + SIZES.len();
        let refusals = places + 15;
        let events = refusals + REFUSALS.len();
        match coverage.refusal {
            Some(refusal) => {
                hit.extend(REFUSALS.iter().position(|row| row.0 == refusal).map(|k| refusals + k))
            }
            None => {
                let ring = coverage.ring_places();
                hit.extend(SIZES.iter().position(|n| *n == ring.len()).map(|k| sizes + k));
                hit.extend(ring.iter().map(|place| places + place_index(place)));
            }
        }
        hit.extend((0..EVENTS.len()).filter(|k| EVENTS[*k].1(coverage)).map(|k| events + k));
        let decisions = events + EVENTS.len();
        hit.extend((0..DECISIONS.len()).filter(|k| DECISIONS[*k].1(coverage)).map(|k| decisions + k));
        let boxes = decisions + DECISIONS.len();
        hit.extend((0..BOXES.len()).filter(|k| BOXES[*k].1(coverage)).map(|k| boxes + k));
        hit
    }

    pub fn count(&mut self, class: usize, coverage: &Coverage) {
        for row in Self::rows_of(class, coverage) {
            self.rows[row].count += 1;
        }
        if let Some(combination) = coverage.combination() {
            *self.combinations.entry(combination).or_default() += 1;
        }
    }

    /// How many different combinations of signs and orders there were.
    pub fn combinations(&self) -> usize {
        self.combinations.len()
    }

    pub fn print(&self) {
        print_rows(&self.rows);
        println!("combinations of signs and orders: {} of 1375", self.combinations());
    }
}

pub fn print_rows(rows: &[Row]) {
    let mut table = "";
    for row in rows {
        if row.table != table {
            table = row.table;
            println!("{table}");
        }
        println!("  {:<50}{:>9}", row.name, row.count);
    }
}

/// Whether every row was hit often enough; says which was not.
pub fn covered(rows: &[Row], enough: usize) -> bool {
    let mut all = true;
    for row in rows.iter().filter(|row| row.count < enough) {
        println!("too few: {} '{}' was hit {} times, {enough} are asked", row.table, row.name, row.count);
        all = false;
    }
    all
}

fn place_index(place: &Place) -> usize {
    match *place {
        Place::Vertex(vertex) => vertex,
        Place::Corner(corner) => 3 + corner,
        Place::Crossing { edge, line } => 6 + 3 * edge + line,
    }
}

pub fn place_name(index: usize) -> String {
    match index {
        0..=2 => format!("U{index}"),
        3..=5 => format!("V{}", index - 3),
        _ => format!("edge {} x line {}", (index - 6) / 3, (index - 6) % 3),
    }
}
