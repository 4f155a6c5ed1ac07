//! Counts of what a comparison of files went through, and what it must have gone through.

use std::cmp::Ordering;

use super::coverage::{Coverage, Of};
use super::events::editions::{ACCEPTED_EDITIONS, AT_LAST_BYTE};
use super::events::{Event, ACCEPTED, ASKED, AT_TABLE, AT_TRAILER, AT_TRIANGLE};
use super::shapes::only_out_of_range;
use super::CLASSES;
use crate::footprint::Reason;
use crate::tally::Row;

/// The numbers of a file's refusals in the order of the tests.
const ORDER: [u32; 8] = [11, 12, 13, 14, 16, 15, 17, 18];

type Test = Box<dyn Fn(&Coverage) -> bool>;

/// First the rows of the classes, then those with a test, then those of what was asked.
pub struct Tally {
    pub rows: Vec<Row>,
    tests: Vec<Test>,
}

impl Default for Tally {
    fn default() -> Self {
        let mut tally = Tally { rows: Vec::new(), tests: Vec::new() };
        CLASSES.iter().for_each(|class| tally.add("class", class.name().to_string()));
        tally.add("class", "beginnings and changed bytes in turn".to_string());
        for number in 11..=18 {
            tally.add_test("number", number.to_string(), move |c| c.number() == number);
        }
        for (name, test) in ACCEPTED.into_iter().chain(ACCEPTED_EDITIONS) {
            tally.add_test("accepted", name.to_string(), move |c| c.accepted() && test(c));
        }
        tally.add_events(&AT_TRAILER);
        tally.add_entries();
        tally.add_events(&AT_LAST_BYTE);
        tally.add_events(&AT_TABLE);
        tally.add_events(&AT_TRIANGLE);
        for index in 0..6 {
            let name = format!("17, only coordinate {index} of the triangle");
            let is_it =
                move |c: &Coverage| only_out_of_range(c.values()).map_or(false, |found| found.0 == index);
            tally.add_test("refusal", name, move |c| c.number() == 17 && is_it(c));
        }
        for number in &ORDER[1..] {
            let name = format!("{number} in a file of 60,000 bytes or more");
            tally.add_test("refusal", name, move |c| c.number() == *number && c.file.len() >= 60_000);
        }
        tally.add_orders();
        ASKED.iter().for_each(|(name, _)| tally.add("recording", name.to_string()));
        tally
    }
}

impl Tally {
    /// The class of files that are not drawn.
    pub const IN_TURN: usize = CLASSES.len();

    fn add(&mut self, table: &'static str, name: String) {
        self.rows.push(Row { table, name, count: 0 });
    }

    fn add_test(&mut self, table: &'static str, name: String, test: impl Fn(&Coverage) -> bool + 'static) {
        self.add(table, name);
        self.tests.push(Box::new(test));
    }

    fn add_events(&mut self, events: &'static [Event]) {
        for (name, test) in events {
            self.add_test("refusal", name.to_string(), test);
        }
    }

    fn add_entries(&mut self) {
        let reasons = [
            (Reason::NoTriangles, "no triangles"),
            (Reason::Set, "set"),
            (Reason::LastByte, "last byte over 1"),
            (Reason::EditionOfNoTest, "last byte 1 of no test"),
            (Reason::First, "first triangle"),
        ];
        let entries = [(Of::First, "first"), (Of::Middle, "middle"), (Of::Last, "last")];
        for (reason, words) in reasons {
            for (entry, which) in entries {
                let name = format!("14, {words} alone, {which} entry");
                let test = move |c: &Coverage| c.refused_for(reason) && c.alone() && c.entry() == entry;
                self.add_test("refusal", name, test);
            }
        }
    }

    /// Every two refusals that a file deserves at once, and where it matters, on which side.
    fn add_orders(&mut self) {
        for (k, &first) in ORDER.iter().enumerate() {
            for &second in &ORDER[k + 1..] {
                self.add_test("order", format!("{first} before {second}"), move |c| c.before(first, second));
            }
        }
        for (entry_or_triangle, one, other) in [("entry", 14, 16), ("triangle", 17, 18)] {
            let name = format!("{one} before {other} of the same {entry_or_triangle}");
            self.add_test("order", name, move |c| c.before_at(one, other, Ordering::Equal));
            for (first, second) in [(one, other), (other, one), (one, one), (other, other)] {
                let name = format!("{first} before {second} of a later {entry_or_triangle}");
                self.add_test("order", name, move |c| c.before_at(first, second, Ordering::Greater));
            }
        }
    }

    pub fn count(&mut self, class: usize, coverage: &Coverage) {
        self.rows[class].count += 1;
        let first = CLASSES.len() + 1;
        for (k, test) in self.tests.iter().enumerate() {
            self.rows[first + k].count += usize::from(test(coverage));
        }
    }

    /// One call for a recording.
    pub fn count_asked(&mut self, coverage: &Coverage, k: usize) {
        let first = self.rows.len() - ASKED.len();
        for (row, (_, test)) in self.rows[first..].iter_mut().zip(ASKED) {
            row.count += usize::from(test(coverage, k));
        }
    }
}
