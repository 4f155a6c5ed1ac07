//! Makes the input of a test program for leak lists, or the output that it must give, on standard
//! output.

use std::fmt::Write as _;
use std::io::{self, Write as _};
use std::process::ExitCode;

use second::files::worked::{all as all_files, too_many_recordings, EXAMPLE, SHORTEST};
use second::leaks::{leaks, List};
use second::lists::rooms::before_last_line;
use second::lists::worked::{all, EXAMPLE_LIST, NOTHING};

/// A file, and the length of the room for its list.
struct Case {
    room_length: usize,
    file: Vec<u8>,
}

/// What the room has in every byte before the call.
const UNWRITTEN: u8 = b'.';
/// Longer than the lists that the refused files would have if they were good.
const LONG_ROOM: usize = 96;
/// What the test program has memory for.
const LONGEST_FILE: usize = 2_047;
const LONGEST_ROOM: usize = 1_000;
const MOST_INPUT: usize = 131_072;

fn main() -> ExitCode {
    let line_of = match std::env::args().nth(1).as_deref() {
        Some("input") => input_line,
        Some("expected") => expected_line,
        _ => {
            eprintln!("usage: cases_leaks input|expected");
            return ExitCode::from(2);
        }
    };
    let cases = chosen();
    let input: usize = cases.iter().map(|case| input_line(case).len()).sum();
    assert!(cases.iter().all(fits) && input <= MOST_INPUT, "the test program has no memory for that");
    let text: String = cases.iter().map(line_of).collect();
    match io::stdout().write_all(text.as_bytes()) {
        Ok(()) => ExitCode::SUCCESS,
        Err(error) => {
            eprintln!("cannot write: {error}");
            ExitCode::FAILURE
        }
    }
}

fn fits(case: &Case) -> bool {
    case.file.len() <= LONGEST_FILE && case.room_length <= LONGEST_ROOM
}

/// Every room for the example, rooms that the lists worked by hand just fit and just do not, rooms that end
/// before the last line where that counts some, and refused files with much room and, some of them, with none.
fn chosen() -> Vec<Case> {
    let mut cases = Vec::new();
    let mut add = |file: &[u8], room_length: usize| cases.push(Case { room_length, file: file.to_vec() });
    (0..=EXAMPLE_LIST.len() + 2).for_each(|length| add(&EXAMPLE, length));
    [0, 8, 19, 39, 41].into_iter().for_each(|length| add(&SHORTEST, length));
    for worked in all().iter().filter(|worked| worked.file != EXAMPLE) {
        add(&worked.file, worked.list.len());
        if worked.list != NOTHING {
            add(&worked.file, worked.list.len() - 1);
        }
        if !worked.list.ends_with(" 0\n") {
            add(&worked.file, before_last_line(&worked.list));
        }
    }
    let mut refused: Vec<Vec<u8>> =
        all_files().into_iter().filter(|worked| worked.number != 0).map(|worked| worked.file).collect();
    refused.retain(|file| file.len() <= LONGEST_FILE);
    refused.push(too_many_recordings());
    for (k, file) in refused.iter().enumerate() {
        add(file, LONG_ROOM);
        if k % 3 == 0 {
            add(file, 0);
        }
    }
    cases
}

fn input_line(case: &Case) -> String {
    let mut line = format!("{:04x} ", case.room_length);
    append_bytes(&mut line, &case.file);
    line + "\n"
}

fn expected_line(case: &Case) -> String {
    let mut room = vec![UNWRITTEN; case.room_length];
    let list = leaks(&case.file, &mut room);
    let mut line = String::new();
    let List { number, place, length, leaks, touching, tested, formerly_held_back } = list;
    for number in [number, place, length as u32, leaks, touching, tested, formerly_held_back] {
        write!(line, "{number:08x} ").expect("a string takes all that is written to it");
    }
    append_bytes(&mut line, &room);
    line + "\n"
}

fn append_bytes(line: &mut String, bytes: &[u8]) {
    for byte in bytes {
        write!(line, "{byte:02x}").expect("a string takes all that is written to it");
    }
}
