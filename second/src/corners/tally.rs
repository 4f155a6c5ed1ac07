//! Counts of the corners that a comparison asked for, and what it must have asked for.

use super::asked::{Asked, ANSWERED, REFUSED};
use super::{CORNER_OF_V, VERTEX_OF_U};
use crate::tally::{place_name, Row};

/// The refusals of a corner.
const NUMBERS: usize = 6;
const LONGEST_RING: usize = 6;
/// Three vertices of U, three corners of V, and nine crossings.
const KINDS: usize = 15;

/// First the rows of answers, then those of refusals.
pub struct Tally {
    pub rows: Vec<Row>,
}

impl Default for Tally {
    fn default() -> Self {
        let mut rows = Vec::new();
        let mut add = |table, name: String| rows.push(Row { table, name, count: 0 });
        (0..KINDS).for_each(|index| add("corner", place_name(index)));
        (0..LONGEST_RING).for_each(|place| add("corner at", place.to_string()));
        ANSWERED.iter().for_each(|(name, _)| add("corner answered", name.to_string()));
        (1..=NUMBERS).for_each(|number| add("corner refused with", number.to_string()));
        REFUSED.iter().for_each(|(name, _)| add("corner refused", name.to_string()));
        Tally { rows }
    }
}

impl Tally {
    /// The rows that one corner counts for.
    pub fn rows_of(asked: &Asked) -> Vec<usize> {
        let numbers = KINDS + LONGEST_RING + ANSWERED.len();
        if !asked.refused_with(0) {
            let events = numbers + NUMBERS;
            let mut hit = vec![numbers + asked.corner.number as usize - 1];
            hit.extend((0..REFUSED.len()).filter(|k| REFUSED[*k].1(asked)).map(|k| events + k));
            return hit;
        }
        let events = KINDS + LONGEST_RING;
        let mut hit = vec![kind_index(asked), KINDS + asked.place];
        hit.extend((0..ANSWERED.len()).filter(|k| ANSWERED[*k].1(asked)).map(|k| events + k));
        hit
    }

    pub fn count(&mut self, asked: &Asked) {
        for row in Self::rows_of(asked) {
            self.rows[row].count += 1;
        }
    }
}

/// In the order of their names.
fn kind_index(asked: &Asked) -> usize {
    let corner = &asked.corner;
    let [which, edge, line] = [corner.which, corner.edge, corner.line].map(|number| number as usize);
    match corner.kind {
        VERTEX_OF_U => which,
        CORNER_OF_V => 3 + which,
        _ => 6 + 3 * edge + line,
    }
}
