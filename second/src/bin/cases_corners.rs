//! Makes the input of a test program for corners, or the output that it must give, on standard output.

use std::fmt::Write as _;
use std::io::{self, Write as _};
use std::process::ExitCode;

use second::case::{plain, Case};
use second::classes::{draw, worked, CLASSES};
use second::corners::asked::{ring_length, Asked};
use second::corners::places::places;
use second::corners::tally::Tally;
use second::corners::{corner_at, FoundRing};
use second::coverage::Coverage;
use second::random::Random;
use second::tally::Row;
use second::triangles::intersect_traced;

const SEED: u64 = 400;
/// How often everything that is counted must occur.
const SEVERAL: usize = 6;
/// How many there are, if that many will do.
const CASES: usize = 400;

/// What the test program has memory for.
const MOST_CASES: usize = 420;
const MOST_VALUES: usize = 21;
const MOST_INPUT: usize = 130_000;

/// The case's room is no part of the line: for a corner none is lent.
struct Question {
    place: usize,
    case: Case,
}

fn main() -> ExitCode {
    let line_of = match std::env::args().nth(1).as_deref() {
        Some("input") => input_line,
        Some("expected") => expected_line,
        _ => {
            eprintln!("usage: cases_corners input|expected");
            return ExitCode::from(2);
        }
    };
    let questions = chosen();
    let input: usize = questions.iter().map(|question| input_line(question).len()).sum();
    assert!(questions.len() <= MOST_CASES && input <= MOST_INPUT, "the test program has no memory for that");
    let text: String = questions.iter().map(line_of).collect();
    match io::stdout().write_all(text.as_bytes()) {
        Ok(()) => ExitCode::SUCCESS,
        Err(error) => {
            eprintln!("cannot write: {error}");
            ExitCode::FAILURE
        }
    }
}

/// The worked cases, then whatever is still rare, then any.
fn chosen() -> Vec<Question> {
    let mut random = Random::new(SEED);
    let mut tally = Tally::default();
    let mut questions = worked_in_turn();
    let is_rare = |row: &Row| row.count < SEVERAL;
    while tally.rows.iter().any(is_rare) || questions.len() < CASES {
        let question = drawn(&mut random);
        let hit = rows_of(&question);
        let rare = tally.rows.iter().any(is_rare);
        if !rare || hit.iter().any(|row| is_rare(&tally.rows[*row])) {
            hit.iter().for_each(|row| tally.rows[*row].count += 1);
            questions.push(question);
        }
    }
    questions
}

/// All but those of K at every place, the two behind it and the largest; K's take turns.
fn worked_in_turn() -> Vec<Question> {
    let mut questions = Vec::new();
    for (k, case) in worked::in_turn().into_iter().map(plain).enumerate() {
        let n = FoundRing::of(&case.values).length().unwrap_or(0);
        let all: Vec<usize> = (0..n + 2).chain([usize::MAX]).collect();
        let asked = if worked::K.contains(&k) { &all[k % 3..=k % 3] } else { &all };
        questions.extend(asked.iter().map(|place| Question { place: *place, case: case.clone() }));
    }
    questions
}

/// At one of the places that a comparison asks for.
fn drawn(random: &mut Random) -> Question {
    loop {
        let case = plain(CLASSES[draw(random)].case(random));
        if case.values.len() <= MOST_VALUES {
            let n = ring_length(&FoundRing::of(&case.values), &coverage_of(&case));
            let all: Vec<usize> = places(n, random).collect();
            return Question { place: random.pick(&all), case };
        }
    }
}

fn rows_of(question: &Question) -> Vec<usize> {
    let Question { place, case } = question;
    Tally::rows_of(&Asked::of(case, &coverage_of(case), &FoundRing::of(&case.values), *place))
}

fn coverage_of(case: &Case) -> Coverage {
    let mut coverage = Coverage::default();
    intersect_traced(&case.values, &mut vec![0.0; case.room_length], &mut coverage);
    coverage
}

fn input_line(question: &Question) -> String {
    let mut line = format!("{:x}", question.place);
    append_values(&mut line, &question.case.values);
    line + "\n"
}

fn expected_line(question: &Question) -> String {
    let corner = corner_at(&question.case.values, question.place);
    let mut line =
        [corner.number, corner.kind, corner.which, corner.edge, corner.line].map(|n| n.to_string()).join(" ");
    append_values(&mut line, &[corner.t, corner.x, corner.y]);
    line + "\n"
}

fn append_values(line: &mut String, values: &[f64]) {
    for value in values {
        write!(line, " {:016x}", value.to_bits()).expect("a string takes all that is written to it");
    }
}
