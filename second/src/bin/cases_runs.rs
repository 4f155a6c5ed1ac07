//! Makes the input of a test program for files that arrive in pieces, or the output that it must give, on
//! standard output.

use std::fmt::Write as _;
use std::io::{self, Write as _};
use std::process::ExitCode;

use second::arrival::{end, piece, Arrival, State};
use second::footprint::MOST_BYTES;
use second::random::Random;
use second::runs::called::calls_of;
use second::runs::run::{Fill, Run, Step};
use second::runs::tally::{Tally, CLASS_TABLE};
use second::runs::worked::{all, Worked};
use second::runs::{draw, CLASSES};
use second::tally::Row;

/// What the test program is told.
enum Line {
    /// A new run: the state with which everything begins, and the same byte all over the memory.
    New(u8),
    State(State),
    Touch(usize, Vec<u8>),
    /// Buffers are the front of the memory, of so many bytes.
    Piece(usize, Vec<u8>),
    /// A piece of so many times the same byte.
    Repeat(usize, usize, u8),
    End(usize),
    Show(usize, usize),
}

const SEED: u64 = 23;
/// How many runs there are, if that many will do.
const RUNS: usize = 360;
/// What a run that is drawn takes of the input, at most, so that many fit.
const SHORT_RUN: usize = 900;
/// How much is shown behind all that has arrived, after few calls and after more, and around the buffer's end.
const FEW_CALLS: usize = 3;
const NEAR_BEHIND: usize = 12;
const BEHIND: usize = 100;
const LAST: usize = 24;

/// What the test program has memory for.
const MEMORY: usize = 65_600;
const MOST_PIECE: usize = 4_096;
const MOST_REPEATED: usize = 70_000;
const MOST_SHOWN: usize = 2_048;
const MOST_LINE: usize = 8_300;
const MOST_INPUT: usize = 131_072;
const MOST_OUTPUT: usize = 200_000;

/// What is counted and cannot occur: a piece or a buffer would be longer, or NULL, which a test program does not
/// lend; and no good file that long can be told so.
const OUT_OF_REACH: [(&str, &str); 4] = [
    ("piece", "empty, NULL"),
    ("piece", "131,072 bytes or more"),
    ("good file", "60,000 bytes or more"),
    ("good file", "65,532 bytes"),
];
const BUFFERS_OUT_OF_REACH: [&str; 3] = [", NULL", ", 131,072 bytes", ", more than 131,072 bytes"];

fn main() -> ExitCode {
    let output_of = match std::env::args().nth(1).as_deref() {
        Some("input") => input_of,
        Some("expected") => expected_of,
        _ => {
            eprintln!("usage: cases_runs input|expected");
            return ExitCode::from(2);
        }
    };
    let lines: Vec<Line> = chosen().iter().flat_map(lines_of).collect();
    let (input, expected) = (input_of(&lines), expected_of(&lines));
    let short = input.lines().all(|line| line.len() < MOST_LINE);
    assert!(
        short && input.len() <= MOST_INPUT && expected.len() <= MOST_OUTPUT,
        "the test program has no memory for that: {} bytes, {} to be printed",
        input.len(),
        expected.len()
    );
    match io::stdout().write_all(output_of(&lines).as_bytes()) {
        Ok(()) => ExitCode::SUCCESS,
        Err(error) => {
            eprintln!("cannot write: {error}");
            ExitCode::FAILURE
        }
    }
}

/// Those worked by hand, then whatever has not occurred yet, then any.
fn chosen() -> Vec<Run> {
    let mut random = Random::new(SEED);
    let mut tally = Tally::default();
    let worked = all().into_iter().filter(|worked| !is_left_out(worked));
    let mut runs: Vec<Run> = worked.map(|worked| worked.run).filter(fits).collect();
    for run in &mut runs {
        run.fill = Fill::Same(some_byte(&mut random));
        count(run, &mut tally);
    }
    while tally.rows.iter().any(is_rare) || runs.len() < RUNS {
        let rare = tally.rows.iter().any(is_rare);
        let mut run = CLASSES[draw(&mut random)].run(&mut random);
        run.fill = Fill::Same(some_byte(&mut random));
        if !fits(&run) || input_of(&lines_of(&run)).len() > SHORT_RUN {
            continue;
        }
        let hit = tally.rows_of(&calls_of(&run));
        if !rare || hit.iter().any(|row| is_rare(&tally.rows[*row])) {
            hit.iter().for_each(|row| tally.rows[*row].count += 1);
            runs.push(run);
        }
    }
    runs
}

/// Not zero, which a wrong program might write by itself.
fn some_byte(random: &mut Random) -> u8 {
    1 + random.below(255) as u8
}

fn count(run: &Run, tally: &mut Tally) {
    tally.rows_of(&calls_of(run)).into_iter().for_each(|row| tally.rows[row].count += 1);
}

fn is_rare(row: &Row) -> bool {
    let named = OUT_OF_REACH.contains(&(row.table, row.name.as_str()));
    let of_buffer = row.table == "23" && BUFFERS_OUT_OF_REACH.iter().any(|end| row.name.ends_with(end));
    row.count == 0 && row.table != CLASS_TABLE && !named && !of_buffer
}

/// Not every file is cut at every place, and of the longest refused ones some will do.
fn is_left_out(worked: &Worked) -> bool {
    const LONG: u32 = 1_000;
    match worked.answers.as_slice() {
        // In two pieces, of which the first has so many bytes, and the end
        [[_, _, first, _], [_, _, length, 0], [0, ..]] => {
            *length > 12 && first % 3 != 0 && first + 12 < *length
        }
        [[_, _, first, _], [_, _, _, 0], _] => first % 17 != 0,
        [[_, _, length, _], [number, ..], _] => *number != 0 && *length > LONG,
        _ => false,
    }
}

fn fits(run: &Run) -> bool {
    run.steps.iter().all(|step| match step {
        Step::Piece { bytes, buffer, .. } => {
            let length = if same_byte(bytes).is_some() { MOST_REPEATED } else { MOST_PIECE };
            bytes.len() <= length && buffer.length() <= MEMORY
        }
        Step::End { buffer } => buffer.length() <= MEMORY,
        Step::Touch { bytes, .. } => bytes.len() <= MOST_PIECE,
        Step::State(_) => true,
    })
}

/// The only byte that there is in a longer piece.
fn same_byte(bytes: &[u8]) -> Option<u8> {
    const LONGER: usize = 9;
    bytes.first().copied().filter(|byte| bytes.len() >= LONGER && bytes.iter().all(|other| other == byte))
}

/// All steps, and then the memory where something has arrived and a little more, and where the buffer ends.
fn lines_of(run: &Run) -> Vec<Line> {
    let of_step = |step: &Step| match step {
        Step::Piece { bytes, buffer, .. } => match same_byte(bytes) {
            Some(byte) => Line::Repeat(buffer.length(), bytes.len(), byte),
            None => Line::Piece(buffer.length(), bytes.clone()),
        },
        Step::End { buffer } => Line::End(buffer.length()),
        Step::Touch { place, bytes } => Line::Touch(*place, bytes.clone()),
        Step::State(state) => Line::State(*state),
    };
    let mut lines = vec![Line::New(run.fill.bytes(1)[0])];
    lines.extend(run.steps.iter().map(of_step));
    let calls = calls_of(run);
    let behind = if calls.len() > FEW_CALLS { BEHIND } else { NEAR_BEHIND };
    let arrived = calls.iter().map(|called| called.answer.arrived as usize);
    let most = arrived.filter(|arrived| *arrived < MOST_SHOWN - BEHIND).max().unwrap_or(0);
    lines.push(Line::Show(0, most + behind));
    lines.push(Line::Show(MOST_BYTES - LAST / 2, LAST));
    lines
}

fn input_of(lines: &[Line]) -> String {
    let mut text = String::new();
    for line in lines {
        text += &match line {
            Line::New(byte) => format!("n {byte:02x}"),
            Line::State(State { arrived, ended }) => format!("s {arrived:08x} {ended:08x}"),
            Line::Touch(place, bytes) => format!("w {place:08x} {}", hex(bytes)),
            Line::Piece(length, bytes) => format!("p {length:08x} {}", hex(bytes)),
            Line::Repeat(length, count, byte) => format!("r {length:08x} {count:08x} {byte:02x}"),
            Line::End(length) => format!("e {length:08x}"),
            Line::Show(place, count) => format!("b {place:08x} {count:08x}"),
        };
        text.push('\n');
    }
    text
}

/// Nothing for lines that are neither calls nor shown.
fn expected_of(lines: &[Line]) -> String {
    let mut memory = vec![0; MEMORY];
    let mut state = State::default();
    let mut text = String::new();
    for line in lines {
        let answer = match line {
            Line::New(byte) => {
                memory.fill(*byte);
                state = State::default();
                continue;
            }
            Line::State(handed_in) => {
                state = *handed_in;
                continue;
            }
            Line::Touch(place, bytes) => {
                memory[*place..*place + bytes.len()].copy_from_slice(bytes);
                continue;
            }
            Line::Show(place, count) => {
                text += &(hex(&memory[*place..*place + *count]) + "\n");
                continue;
            }
            Line::Piece(length, bytes) => piece(state, bytes, &mut memory[..*length]),
            Line::Repeat(length, count, byte) => piece(state, &vec![*byte; *count], &mut memory[..*length]),
            Line::End(length) => end(state, &memory[..*length]),
        };
        let Arrival { number, place, arrived, ended } = answer;
        text += &([number, place, arrived, ended].map(|number| format!("{number:08x}")).join(" ") + "\n");
        state = answer.state();
    }
    text
}

fn hex(bytes: &[u8]) -> String {
    let mut text = String::with_capacity(2 * bytes.len());
    for byte in bytes {
        write!(text, "{byte:02x}").expect("a string takes all that is written to it");
    }
    text
}
