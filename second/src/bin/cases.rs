//! Makes the input of a test program, or the output that it must give, on standard output.

use std::fmt::Write as _;
use std::io::{self, Write as _};
use std::process::ExitCode;

use second::case::{plain, Case};
use second::classes::{decisions, draw, formulas, worked, CLASSES};
use second::coverage::Coverage;
use second::decision::decide;
use second::random::Random;
use second::tally::{Row, Tally, BOXES_TABLE};
use second::triangles::{intersect, intersect_traced};

const SEED: u64 = 300;
/// How many there are before those that tell formulas, decisions and boxes apart.
const CASES: usize = 320;
/// How many cases of each class are taken as they come.
const OF_EACH_CLASS: usize = 4;
/// How often everything that is counted must occur; boxes have cases of their own.
const SEVERAL: usize = 6;
/// No input of a case has more values, and no room is longer.
const MOST_VALUES: usize = 21;
const LONGEST_ROOM: usize = 20;

fn main() -> ExitCode {
    let line_of = match std::env::args().nth(1).as_deref() {
        Some("input") => input_line,
        Some("expected") => expected_line,
        _ => {
            eprintln!("usage: cases input|expected");
            return ExitCode::from(2);
        }
    };
    let text: String = chosen().iter().map(line_of).collect();
    match io::stdout().write_all(text.as_bytes()) {
        Ok(()) => ExitCode::SUCCESS,
        Err(error) => {
            eprintln!("cannot write: {error}");
            ExitCode::FAILURE
        }
    }
}

/// The worked cases, some of each class, then whatever is still rare, then any; last, those that tell
/// formulas apart, decisions, and boxes.
fn chosen() -> Vec<Case> {
    let mut random = Random::new(SEED);
    let mut tally = Tally::default();
    let mut cases = worked::in_turn();
    for class in 0..CLASSES.len() {
        for _ in 0..OF_EACH_CLASS {
            let case = drawn(class, &mut random);
            tally.count(class, &coverage_of(&case));
            cases.push(case);
        }
    }
    let is_rare = |row: &Row| row.count < SEVERAL && row.table != BOXES_TABLE;
    while tally.rows.iter().any(is_rare) || cases.len() < CASES {
        let class = draw(&mut random);
        let case = drawn(class, &mut random);
        let coverage = coverage_of(&case);
        let rare = tally.rows.iter().any(is_rare);
        let helps = Tally::rows_of(class, &coverage).iter().any(|row| is_rare(&tally.rows[*row]));
        if helps || !rare {
            tally.count(class, &coverage);
            cases.push(case);
        }
    }
    cases.extend(formulas::in_turn());
    cases.extend(decisions::in_turn());
    cases.extend(decisions::boxes_in_turn());
    cases
}

fn drawn(class: usize, random: &mut Random) -> Case {
    loop {
        let case = plain(CLASSES[class].case(random));
        if case.values.len() <= MOST_VALUES && case.room_length <= LONGEST_ROOM {
            return case;
        }
    }
}

fn coverage_of(case: &Case) -> Coverage {
    let mut coverage = Coverage::default();
    intersect_traced(&case.values, &mut room_for(case), &mut coverage);
    coverage.decided(&case.values, decide(&case.values));
    coverage
}

/// What the test program lends: whole numbers from 1000 on.
fn room_for(case: &Case) -> Vec<f64> {
    (0..case.room_length).map(|k| 1000.0 + k as f64).collect()
}

fn input_line(case: &Case) -> String {
    let mut line = format!("{:02x}", case.room_length);
    append_values(&mut line, &case.values);
    line + "\n"
}

fn expected_line(case: &Case) -> String {
    let mut room = room_for(case);
    let answer = intersect(&case.values, &mut room);
    let mut line = format!("{} {} {:016x} ", answer.number, answer.n, answer.area.to_bits());
    for flag in [answer.u_in_v, answer.v_in_u, answer.neighbour].concat() {
        line.push(if flag { '1' } else { '0' });
    }
    let decision = decide(&case.values);
    line += &format!(" {} {} {:016x}", decision.number, decision.kind, decision.area.to_bits());
    append_values(&mut line, &room);
    line + "\n"
}

fn append_values(line: &mut String, values: &[f64]) {
    for value in values {
        write!(line, " {:016x}", value.to_bits()).expect("a string takes all that is written to it");
    }
}
