//! Counts of what a comparison of lists went through, and what it must have gone through.

use super::coverage::editions::{Weighed, OTHER_WAYS};
use super::coverage::Coverage;
use super::events::boxes::{alone_at, of_so_many, COUNTS, OWN_BOXES, PLACES, SIDES, TESTED, TRIANGLE_BOXES};
use super::events::editions::{EDITIONS, WEIGHED};
use super::events::held_back::HELD_BACK_ONES;
use super::events::{has_id, Event, LISTS, RECORDINGS, ROOMS, TRIANGLES};
use super::rooms::Room;
use super::CLASSES;
use crate::tally::Row;

type Test = Box<dyn Fn(&Coverage) -> bool>;

/// First the rows of the classes, then those with a test, then those of rooms.
pub struct Tally {
    pub rows: Vec<Row>,
    tests: Vec<Test>,
}

impl Default for Tally {
    fn default() -> Self {
        let mut tally = Tally { rows: Vec::new(), tests: Vec::new() };
        CLASSES.iter().for_each(|class| tally.add("class", class.name().to_string()));
        tally.add("class", "beginnings and changed bytes in turn".to_string());
        for number in 11..=18 {
            tally.add_test("number", number.to_string(), move |c| c.number() == number);
        }
        tally.add_events("list", &LISTS);
        tally.add_events("recordings", &RECORDINGS);
        for digits in 1..=10 {
            let (least, past) = (10u64.pow(digits - 1), 10u64.pow(digits));
            let (least, most) = (least as u32, past.min(1 << 32) - 1);
            let name = format!("id of {digits} digits in a line");
            tally.add_test("recordings", name, move |c| has_id(c, least, most as u32));
        }
        tally.add_events("held back ones", &HELD_BACK_ONES);
        tally.add_events("editions", &EDITIONS);
        tally.add_weighed();
        tally.add_events("triangles", &TRIANGLES);
        tally.add_events("tested", &TESTED);
        tally.add_events("recordings' own boxes", &OWN_BOXES);
        tally.add_events("triangles' boxes", &TRIANGLE_BOXES);
        tally.add_near();
        ROOMS.iter().for_each(|(name, _)| tally.add("room", name.to_string()));
        tally
    }
}

impl Tally {
    /// The class of files that are not drawn.
    pub const IN_TURN: usize = CLASSES.len();

    fn add(&mut self, table: &'static str, name: String) {
        self.rows.push(Row { table, name, count: 0 });
    }

    fn add_test(&mut self, table: &'static str, name: String, test: impl Fn(&Coverage) -> bool + 'static) {
        self.add(table, name);
        self.tests.push(Box::new(test));
    }

    fn add_events(&mut self, table: &'static str, events: &'static [Event]) {
        for (name, test) in events {
            self.add_test(table, name.to_string(), move |c| c.accepted() && test(c));
        }
    }

    /// Of overlaps with tests of the second edition: what they are, and what another way to weigh them would
    /// make of them.
    fn add_weighed(&mut self) {
        for (name, test) in WEIGHED {
            self.add_test("second edition", name.to_string(), move |c| {
                c.any(|two| two.weighed.as_ref().map_or(false, test))
            });
        }
        for (name, leak) in OTHER_WAYS {
            let otherwise = move |w: &Weighed| leak(w) != w.leak();
            self.add_test("second edition, otherwise with", name.to_string(), move |c| {
                c.any(|two| two.weighed.as_ref().map_or(false, otherwise))
            });
        }
    }

    /// Of recordings with a near triangle pair, for tests and trainings apart.
    fn add_near(&mut self) {
        for (side, set) in SIDES {
            for counts in COUNTS {
                let more = if counts.1 == usize::MAX { " or more" } else { "" };
                let name = format!("{set}, {}{more} triangles", counts.0);
                self.add_test("near ones", name, move |c| of_so_many(c, side, counts));
            }
            for (name, place) in PLACES {
                self.add_test("near ones", format!("{set}, {name}"), move |c| alone_at(c, side, place));
            }
        }
    }

    /// One file, and all the rooms that were lent for its list.
    pub fn count(&mut self, class: usize, coverage: &Coverage, rooms: &[Room]) {
        self.rows[class].count += 1;
        let first = CLASSES.len() + 1;
        for (k, test) in self.tests.iter().enumerate() {
            self.rows[first + k].count += usize::from(test(coverage));
        }
        let first = self.rows.len() - ROOMS.len();
        for (row, (_, test)) in self.rows[first..].iter_mut().zip(ROOMS) {
            row.count += rooms.iter().filter(|room| test(coverage, **room)).count();
        }
    }
}
