//! Makes the input of a test program for the writer of footprint files, or the output that it must give, on
//! standard output.

use std::fmt::Write as _;
use std::io::{self, Write as _};
use std::process::ExitCode;

use second::drafts::draft::Draft;
use second::drafts::worked::{all, example, recordings, three};
use second::writer::write;

/// What is handed to the writer, and the length of the room for its file.
struct Case {
    room_length: usize,
    draft: Draft,
}

/// What the room has in every byte before the call.
const UNWRITTEN: u8 = b'.';
/// Bytes of the example's triangles.
const NUMBERS_OF_EXAMPLE: usize = 48;
/// How far beyond a file's length its rooms go.
const MORE: usize = 13;

/// What the test program has memory for.
const MOST_ENTRIES: usize = 80;
const MOST_NUMBERS: usize = 1_000;
const MOST_ROOM: usize = 4_096;
const MOST_INPUT: usize = 131_072;

fn main() -> ExitCode {
    let line_of = match std::env::args().nth(1).as_deref() {
        Some("input") => input_line,
        Some("expected") => expected_line,
        _ => {
            eprintln!("usage: cases_written input|expected");
            return ExitCode::from(2);
        }
    };
    let cases = chosen();
    let input: usize = cases.iter().map(|case| input_line(case).len()).sum();
    assert!(cases.iter().all(fits) && input <= MOST_INPUT, "the test program has no memory for that");
    let text: String = cases.iter().map(line_of).collect();
    match io::stdout().write_all(text.as_bytes()) {
        Ok(()) => ExitCode::SUCCESS,
        Err(error) => {
            eprintln!("cannot write: {error}");
            ExitCode::FAILURE
        }
    }
}

fn fits(case: &Case) -> bool {
    let Draft { ids, counts, sets, lasts, numbers } = &case.draft;
    let entries = ids.len().max(counts.len()).max(sets.len()).max(lasts.len());
    entries <= MOST_ENTRIES && numbers.len() <= MOST_NUMBERS && case.room_length <= MOST_ROOM
}

/// The drafts worked by hand, among them every refusal and every two at once; then every room for the
/// shortest file, for the example those that its triangles fit, and rooms around the lengths of longer ones.
fn chosen() -> Vec<Case> {
    let mut cases: Vec<Case> =
        all().into_iter().map(|worked| Case { room_length: worked.room, draft: worked.draft }).collect();
    let mut add = |draft: Draft, least: usize| {
        let most = draft.length() + MORE;
        cases.extend((least..=most).map(|room_length| Case { room_length, draft: draft.clone() }));
    };
    add(Draft::default(), 0);
    add(example(), NUMBERS_OF_EXAMPLE);
    add(three(), three().length() - MORE);
    add(recordings(64), recordings(64).length() + MORE);
    cases
}

fn input_line(case: &Case) -> String {
    let Draft { ids, counts, sets, lasts, numbers } = &case.draft;
    let mut line = format!("{:04x} ", case.room_length);
    ids.iter().for_each(|id| append_bytes(&mut line, &id.to_le_bytes()));
    line.push(' ');
    counts.iter().for_each(|count| append_bytes(&mut line, &count.to_le_bytes()));
    line.push(' ');
    append_bytes(&mut line, sets);
    line.push(' ');
    append_bytes(&mut line, lasts);
    line.push(' ');
    numbers.iter().for_each(|number| append_bytes(&mut line, &number.to_le_bytes()));
    line + "\n"
}

fn expected_line(case: &Case) -> String {
    let mut room = vec![UNWRITTEN; case.room_length];
    let written = write(case.draft.handed(), &mut room);
    let mut line = String::new();
    for number in [written.number, written.place, written.length as u32] {
        write!(line, "{number:08x} ").expect("a string takes all that is written to it");
    }
    append_bytes(&mut line, &room);
    line + "\n"
}

fn append_bytes(line: &mut String, bytes: &[u8]) {
    for byte in bytes {
        write!(line, "{byte:02x}").expect("a string takes all that is written to it");
    }
}
