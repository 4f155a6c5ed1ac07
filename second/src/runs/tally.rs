//! Counts of what a comparison of runs went through, and what it must have gone through.

use super::called::Called;
use super::events::{
    of_gathered, Event, OfFile, ACCEPTED, ARRIVED, BUFFERS, CALLS, ENDED, FULL, MADE_UP, ORDERS, PIECES,
    TOTALS, TOUCHED, WAYS, WHEN,
};
use super::CLASSES;
use crate::arrival::{AFTER_THE_END, OTHER_BUFFER};
use crate::footprint::MOST_BYTES;
use crate::tally::Row;

type Test = Box<dyn Fn(&Called) -> bool>;

/// The table of the classes that runs are drawn from.
pub const CLASS_TABLE: &str = "class";

/// What the end of a file is answered with.
const VERDICTS: [u32; 9] = [0, 11, 12, 13, 14, 15, 16, 17, 18];

/// First the rows of the classes, then those with a test of every call.
pub struct Tally {
    pub rows: Vec<Row>,
    tests: Vec<Test>,
}

impl Default for Tally {
    fn default() -> Self {
        let mut tally = Tally { rows: Vec::new(), tests: Vec::new() };
        CLASSES.iter().for_each(|class| tally.add(CLASS_TABLE, class.name().to_string()));
        tally.add_answers();
        tally.add_events("piece", &PIECES, |c| c.taken() && !c.made_up && c.length().is_some());
        tally.add_places();
        tally.add_files();
        tally.add_after();
        tally.add_buffers();
        tally.add_states();
        tally.add_events("touched", &TOUCHED, |c| c.is_end() && c.taken());
        tally
    }
}

impl Tally {
    fn add(&mut self, table: &'static str, name: String) {
        self.rows.push(Row { table, name, count: 0 });
    }

    fn add_test(&mut self, table: &'static str, name: String, test: impl Fn(&Called) -> bool + 'static) {
        self.add(table, name);
        self.tests.push(Box::new(test));
    }

    fn add_events(&mut self, table: &'static str, events: &'static [Event], of: fn(&Called) -> bool) {
        for (name, test) in events {
            self.add_test(table, name.to_string(), move |c| of(c) && test(c));
        }
    }

    fn add_answers(&mut self) {
        for (call, is_it) in CALLS {
            let numbers: &[u32] = if call == "end" { &VERDICTS } else { &[0] };
            for &number in numbers.iter().chain(&[AFTER_THE_END, OTHER_BUFFER]) {
                self.add_test("answer", format!("{call}, {number}"), move |c| {
                    c.answer.number == number && is_it(c)
                });
            }
        }
    }

    /// Where a piece of some bytes begins, and how long it is, beyond a multiple of eight.
    fn add_places(&mut self) {
        const SOME: usize = 16;
        let of = |c: &Called| c.taken() && !c.made_up && c.length().map_or(false, |length| length >= SOME);
        for k in 0..8 {
            self.add_test("copied", format!("to 8 n + {k}"), move |c| {
                of(c) && c.before.arrived as usize % 8 == k
            });
            self.add_test("copied", format!("8 n + {k} bytes"), move |c| {
                of(c) && c.length().map(|length| length % 8) == Some(k)
            });
        }
    }

    fn add_files(&mut self) {
        for number in VERDICTS {
            for (name, test) in WAYS {
                self.add_test("file", format!("{number}, {name}"), move |c| {
                    c.answer.number == number && of_gathered(c, |g| !g.touched && test(g))
                });
            }
        }
        self.add_of_files("good file", &ACCEPTED, |c| c.answer.number == 0);
        self.add_of_files("total", &TOTALS, |_| true);
        for (name, number) in FULL {
            self.add_test("total", name.to_string(), move |c| {
                c.answer.number == number && of_gathered(c, |g| !g.touched && g.file.len() == MOST_BYTES)
            });
        }
    }

    fn add_of_files(&mut self, table: &'static str, events: &'static [OfFile], of: fn(&Called) -> bool) {
        for (name, test) in events {
            self.add_test(table, name.to_string(), move |c| {
                of(c) && of_gathered(c, |g| !g.touched && test(g))
            });
        }
    }

    fn add_after(&mut self) {
        for number in VERDICTS {
            for (call, is_it) in CALLS {
                let name = format!("{call} after an end with {number}");
                self.add_test("22", name, move |c| {
                    c.answer.number == AFTER_THE_END && c.ended_with == Some(number) && is_it(c)
                });
            }
        }
        self.add_events("order", &ORDERS, |_| true);
    }

    fn add_buffers(&mut self) {
        for (call, is_it) in CALLS {
            for (name, test) in BUFFERS.into_iter().chain(WHEN) {
                self.add_test("23", format!("{call}, {name}"), move |c| {
                    c.answer.number == OTHER_BUFFER && is_it(c) && test(c)
                });
            }
        }
    }

    fn add_states(&mut self) {
        for (call, is_it) in CALLS {
            for (name, test) in ENDED {
                let name = format!("{call}, ended {name}");
                self.add_test("handed in", name, move |c| c.answer.number == 22 && is_it(c) && test(c));
            }
            for (name, test) in ARRIVED {
                let name = format!("{call}, arrived {name}");
                self.add_test("handed in", name, move |c| c.made_up && c.taken() && is_it(c) && test(c));
            }
        }
        self.add_events("handed in", &MADE_UP, |c| c.made_up && c.taken());
    }

    /// The rows that a run's calls count for; a row as often as there are such calls.
    pub fn rows_of(&self, calls: &[Called]) -> Vec<usize> {
        let of_call =
            |c: &Called| -> Vec<usize> { (0..self.tests.len()).filter(|k| self.tests[*k](c)).collect() };
        calls.iter().flat_map(of_call).map(|k| CLASSES.len() + k).collect()
    }

    pub fn count(&mut self, class: usize, calls: &[Called]) {
        self.rows[class].count += 1;
        for row in self.rows_of(calls) {
            self.rows[row].count += 1;
        }
    }
}
