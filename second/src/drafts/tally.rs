//! Counts of what a comparison of writers went through, and what it must have gone through.

use std::cmp::Ordering;

use super::at_once::{broken_off, made_up_for, odd_one, two_by_two, LENGTHS, LISTS};
use super::calls::{Call, NEAR};
use super::coverage::{Coverage, AT_ROOM};
use super::events::editions::{AT_LAST_BYTE, ORDERS as LAST_BYTE_ORDERS, WRITTEN_EDITIONS};
use super::events::{is_empty, Event, AT_END, AT_ENTRY, AT_SUM, AT_TRIANGLE, HELD_BACK_ORDERS};
use super::events::{RECORDINGS, ROOMS, WRITTEN};
use super::faults::STAGES;
use super::CLASSES;
use crate::files::coverage::Of;
use crate::files::shapes::only_out_of_range;
use crate::tally::Row;
use crate::writer::Reason;

type Test = Box<dyn Fn(&Coverage) -> bool>;
type TestOfCall = Box<dyn Fn(&Coverage, &Call) -> bool>;

/// First the rows of the classes, then those with a test, then those with a test of every call.
pub struct Tally {
    pub rows: Vec<Row>,
    tests: Vec<Test>,
    tests_of_calls: Vec<TestOfCall>,
}

impl Default for Tally {
    fn default() -> Self {
        let mut tally = Tally { rows: Vec::new(), tests: Vec::new(), tests_of_calls: Vec::new() };
        CLASSES.iter().for_each(|class| tally.add("class", class.name().to_string()));
        for number in 13..=19 {
            let name = format!("{number}, whatever the room");
            tally.add_test("number", name, move |c| c.number() == number);
        }
        for (name, test) in WRITTEN.into_iter().chain(WRITTEN_EDITIONS) {
            tally.add_test("written", name.to_string(), move |c| c.good() && test(c));
        }
        tally.add_events("recordings", &RECORDINGS);
        tally.add_at_once();
        tally.add_entries();
        tally.add_events("refusal", &AT_ENTRY);
        tally.add_events("refusal", &AT_LAST_BYTE);
        tally.add_events("refusal", &AT_SUM);
        tally.add_events("refusal", &AT_TRIANGLE);
        for index in 0..6 {
            let name = format!("17, only number {index} of the triangle");
            let is_it =
                move |c: &Coverage| only_out_of_range(c.triangle()).map_or(false, |found| found.0 == index);
            tally.add_test("refusal", name, move |c| c.number() == 17 && is_it(c));
        }
        tally.add_events("refusal", &AT_END);
        tally.add_orders();
        tally.add_events("order", &HELD_BACK_ORDERS);
        tally.add_events("order", &LAST_BYTE_ORDERS);
        tally.add_calls();
        tally
    }
}

impl Tally {
    fn add(&mut self, table: &'static str, name: String) {
        self.rows.push(Row { table, name, count: 0 });
    }

    fn add_test(&mut self, table: &'static str, name: String, test: impl Fn(&Coverage) -> bool + 'static) {
        self.add(table, name);
        self.tests.push(Box::new(test));
    }

    fn add_test_of_calls(
        &mut self,
        table: &'static str,
        name: String,
        test: impl Fn(&Coverage, &Call) -> bool + 'static,
    ) {
        self.add(table, name);
        self.tests_of_calls.push(Box::new(test));
    }

    fn add_events(&mut self, table: &'static str, events: &'static [Event]) {
        for (name, test) in events {
            self.add_test(table, name.to_string(), test);
        }
    }

    fn add_at_once(&mut self) {
        for (list, name) in LISTS.into_iter().enumerate() {
            for (how, test) in LENGTHS {
                let name = format!("15 at once, {name} {how}");
                self.add_test("refusal", name, move |c| odd_one(c, list, test));
            }
            for other in (0..LISTS.len()).filter(|other| *other != list) {
                let name = format!("15 at once, {name} shorter and {} longer", LISTS[other]);
                self.add_test("refusal", name, move |c| made_up_for(c, list, other));
            }
        }
        for (other, name) in LISTS.into_iter().enumerate().skip(1) {
            let name = format!("15 at once, ids and {name} alike, and the others");
            self.add_test("refusal", name, move |c| two_by_two(c, other));
        }
        for some in 1..6 {
            for (counted, words) in [(false, "not counted"), (true, "counted")] {
                let name = format!("15 at once, {some} of 6 numbers, {words}");
                self.add_test("refusal", name, move |c| broken_off(c, some, counted));
            }
        }
        let both = |c: &Coverage| c.has(Reason::Lengths) && c.has(Reason::BrokenOff);
        self.add_test("refusal", "15 at once, for both".to_string(), both);
    }

    fn add_entries(&mut self) {
        let reasons = [
            (Reason::NoTriangles, "no triangles"),
            (Reason::Set, "set"),
            (Reason::LastByte, "last byte over 1"),
            (Reason::EditionOfNoTest, "last byte 1 of a training"),
        ];
        let entries = [(Of::First, "first"), (Of::Middle, "middle"), (Of::Last, "last")];
        for (reason, words) in reasons {
            for (entry, which) in entries {
                let name = format!("14, {words}, {which} entry");
                self.add_test("refusal", name, move |c| c.refused_for(reason) && c.entry() == entry);
            }
        }
        for reason in [Reason::Set, Reason::Id, Reason::Sum, Reason::Range, Reason::ZeroArea] {
            let name = format!("{}, and nothing else", reason.number());
            self.add_test("refusal", name, move |c| c.refused_alone_for(reason));
        }
    }

    /// Every two refusals that a draft deserves at once, and where it matters, on which side.
    fn add_orders(&mut self) {
        for (first, (one, _)) in STAGES.iter().enumerate() {
            for (second, (other, _)) in STAGES.iter().enumerate().skip(first + 1) {
                let why = if second == AT_ROOM { " for the length" } else { "" };
                self.add_test("order", format!("{one} before {other}{why}"), move |c| {
                    c.before(first, second)
                });
            }
        }
        for (entry_or_triangle, one, other) in [("entry", 1, 2), ("triangle", 4, 5)] {
            let name = |first: usize, second: usize, of: &str| {
                format!("{} before {} of {of} {entry_or_triangle}", STAGES[first].0, STAGES[second].0)
            };
            let same = name(one, other, "the same");
            self.add_test("order", same, move |c| c.before_at(one, other, Ordering::Equal));
            for (first, second) in [(one, other), (other, one), (one, one), (other, other)] {
                let later = name(first, second, "a later");
                self.add_test("order", later, move |c| c.before_at(first, second, Ordering::Greater));
            }
        }
    }

    fn add_calls(&mut self) {
        for (stage, (name, _)) in STAGES.iter().enumerate().take(AT_ROOM) {
            let name = format!("{name} before 19 for the room");
            self.add_test_of_calls("order", name, move |c, call| c.before_room(stage, call));
        }
        for (name, test) in ROOMS {
            self.add_test_of_calls("room", name.to_string(), test);
        }
        for by in 1..=NEAR {
            let short = move |c: &Coverage, call: &Call| c.good() && call.room + by == c.draft.length();
            self.add_test_of_calls("room", format!("19, {by} too short"), short);
            let long = move |c: &Coverage, call: &Call| c.good() && call.room == c.draft.length() + by;
            self.add_test_of_calls("room", format!("{by} longer"), long);
        }
        for (list, name) in LISTS.into_iter().chain(["numbers"]).enumerate() {
            for (null, words) in [(true, "NULL"), (false, "empty, not NULL")] {
                let test = move |c: &Coverage, call: &Call| is_empty(c, list) && call.null[list] == null;
                self.add_test_of_calls("empty", format!("{name} {words}"), test);
            }
        }
    }

    /// One draft, and all the ways in which it was lent.
    pub fn count(&mut self, class: usize, coverage: &Coverage, calls: &[Call]) {
        self.rows[class].count += 1;
        let first = CLASSES.len();
        for (k, test) in self.tests.iter().enumerate() {
            self.rows[first + k].count += usize::from(test(coverage));
        }
        let first = first + self.tests.len();
        for (k, test) in self.tests_of_calls.iter().enumerate() {
            self.rows[first + k].count += calls.iter().filter(|call| test(coverage, call)).count();
        }
    }
}
