//! Counts of what a comparison of texts went through, and what it must have gone through.

use super::asked::Asked;
use super::calls::{Call, NEAR};
use super::events::{Event, Lent, BEFORE, NOT_THERE, ORDERS, RECORDINGS, REFUSED, ROOMS, TEXTS};
use super::numbers::KNOWN;
use super::CLASSES;
use crate::tally::Row;
use crate::wkt::{NO_SUCH_ID, ROOM_TOO_SHORT};

type Test = Box<dyn Fn(&Asked) -> bool>;
type TestOfCall = Box<dyn Fn(&Asked, &Call) -> bool>;

/// The table of the classes that files are drawn from.
pub const CLASS_TABLE: &str = "class";

/// The six numbers of a triangle.
const PLACES: [&str; 6] = ["x0", "y0", "x1", "y1", "x2", "y2"];
/// By how many digits the metres have.
const DIGITS: [(&str, i32, i32); 6] = [
    ("0 metres", 1, 99),
    ("1 digit", 100, 999),
    ("2 digits", 1_000, 9_999),
    ("3 digits", 10_000, 99_999),
    ("4 digits", 100_000, 999_999),
    ("5 digits", 1_000_000, 1_000_000),
];

/// First the rows of the classes, then those with a test of every id, then those with a test of every call.
pub struct Tally {
    pub rows: Vec<Row>,
    tests: Vec<Test>,
    tests_of_calls: Vec<TestOfCall>,
}

impl Default for Tally {
    fn default() -> Self {
        let mut tally = Tally { rows: Vec::new(), tests: Vec::new(), tests_of_calls: Vec::new() };
        CLASSES.iter().for_each(|class| tally.add(CLASS_TABLE, class.name().to_string()));
        tally.add_events("recording", &RECORDINGS, |a| a.answered());
        tally.add_events("text", &TEXTS, |a| a.answered());
        tally.add_numbers();
        tally.add_events("21", &NOT_THERE, |a| a.answer.number == NO_SUCH_ID);
        tally.add_events("refused file, id there", &REFUSED, |_| true);
        tally.add_calls();
        tally
    }
}

impl Tally {
    fn add(&mut self, table: &'static str, name: String) {
        self.rows.push(Row { table, name, count: 0 });
    }

    fn add_test(&mut self, table: &'static str, name: String, test: impl Fn(&Asked) -> bool + 'static) {
        self.add(table, name);
        self.tests.push(Box::new(test));
    }

    fn add_events(&mut self, table: &'static str, events: &'static [Event], of: fn(&Asked) -> bool) {
        for (name, test) in events {
            self.add_test(table, name.to_string(), move |a| of(a) && test(a));
        }
    }

    /// Kinds of numbers at each of the six places, and some numbers at any.
    fn add_numbers(&mut self) {
        for (place, name) in PLACES.iter().enumerate() {
            let zero = move |a: &Asked| has_number(a, place, 0, 0);
            self.add_test("number", format!("{name}, zero"), zero);
            for (digits, least, most) in DIGITS {
                let above = move |a: &Asked| has_number(a, place, least, most);
                self.add_test("number", format!("{name}, {digits}"), above);
                let below = move |a: &Asked| has_number(a, place, -most, -least);
                self.add_test("number", format!("{name}, minus, {digits}"), below);
            }
        }
        for (number, text) in KNOWN {
            let at_any = move |a: &Asked| (0..6).any(|place| has_number(a, place, number, number));
            self.add_test("number", text.to_string(), at_any);
        }
    }

    fn add_test_of_calls(
        &mut self,
        table: &'static str,
        name: String,
        test: impl Fn(&Asked, &Call) -> bool + 'static,
    ) {
        self.add(table, name);
        self.tests_of_calls.push(Box::new(test));
    }

    fn add_calls(&mut self) {
        for number in (11..=18).chain([NO_SUCH_ID]) {
            self.add_test_of_calls("answer", number.to_string(), move |a, _| a.answer.number == number);
        }
        let too_short = |a: &Asked, call: &Call| a.answered() && call.room < a.length();
        self.add_test_of_calls("answer", ROOM_TOO_SHORT.to_string(), too_short);
        self.add_lent("room", &ROOMS, |a| a.answered());
        for by in 1..=NEAR {
            let short = move |a: &Asked, call: &Call| a.answered() && call.room + by == a.length();
            self.add_test_of_calls("room", format!("20, {by} too short"), short);
            let long = move |a: &Asked, call: &Call| a.answered() && call.room == a.length() + by;
            self.add_test_of_calls("room", format!("{by} longer"), long);
        }
        self.add_lent("order", &ORDERS, |_| true);
        for number in 11..=18 {
            for (name, test) in BEFORE {
                let name = format!("{number} {name}");
                self.add_test_of_calls("order", name, move |a, call| {
                    a.of.verdict.number == number && test(a, call)
                });
            }
        }
    }

    fn add_lent(&mut self, table: &'static str, lent: &'static [Lent], of: fn(&Asked) -> bool) {
        for (name, test) in lent {
            self.add_test_of_calls(table, name.to_string(), move |a, call| of(a) && test(a, call));
        }
    }

    /// The rows that an id with one room counts for.
    pub fn rows_of(&self, asked: &Asked, call: &Call) -> Vec<usize> {
        let (first, calls) = (CLASSES.len(), CLASSES.len() + self.tests.len());
        let of_asked = (0..self.tests.len()).filter(|k| self.tests[*k](asked)).map(|k| first + k);
        let of_call = (0..self.tests_of_calls.len()).filter(|k| self.tests_of_calls[*k](asked, call));
        of_asked.chain(of_call.map(|k| calls + k)).collect()
    }

    pub fn count_file(&mut self, class: usize) {
        self.rows[class].count += 1;
    }

    /// One id, and all the rooms that were lent for its text.
    pub fn count(&mut self, asked: &Asked, calls: &[Call]) {
        let first = CLASSES.len();
        for (k, test) in self.tests.iter().enumerate() {
            self.rows[first + k].count += usize::from(test(asked));
        }
        let first = first + self.tests.len();
        for (k, test) in self.tests_of_calls.iter().enumerate() {
            self.rows[first + k].count += calls.iter().filter(|call| test(asked, call)).count();
        }
    }
}

fn has_number(a: &Asked, place: usize, least: i32, most: i32) -> bool {
    a.triangles.iter().any(|triangle| (least..=most).contains(&triangle[place]))
}
