//! Makes the input of a test program for well-known texts, or the output that it must give, on standard
//! output.

use std::fmt::Write as _;
use std::io::{self, Write as _};
use std::process::ExitCode;

use second::drafts::calls::Fill;
use second::files::draft::Draft;
use second::files::good;
use second::files::worked::too_many_recordings;
use second::random::Random;
use second::tally::Row;
use second::texts::asked::Asked;
use second::texts::calls::{rooms_for, Call, NEAR};
use second::texts::coverage::Coverage;
use second::texts::ids::ids_for;
use second::texts::numbers::{at_changes, widest};
use second::texts::tally::{Tally, CLASS_TABLE};
use second::texts::worked::{all, shown, Worked, SHOWN_TEXT};
use second::texts::{draw, CLASSES};
use second::wkt::{wkt, ROOM_TOO_SHORT};

/// What is asked of a file, and the length of the room for its text.
struct Case {
    room_length: usize,
    id: u32,
    file: Vec<u8>,
}

const SEED: u64 = 21;
/// How often everything that is counted must occur, if it can.
const SEVERAL: usize = 2;
/// How many there are, if that many will do.
const CASES: usize = 280;
/// What the room has in every byte before the call.
const UNWRITTEN: u8 = b'.';
/// A file that is drawn is no longer, so that many fit.
const SHORT_FILE: usize = 300;

/// What the test program has memory for.
const MOST_CASES: usize = 300;
const MOST_FILE: usize = 2_047;
const MOST_ROOM: usize = 4_096;
const MOST_INPUT: usize = 131_072;

/// What is counted and cannot occur: the file or the room would be longer, or NULL, which a test program does
/// not lend.
const OUT_OF_REACH: [&str; 14] = [
    "the last of 64",
    "100 to 999 triangles",
    "1,000 triangles or more",
    "10,000 to 65,536 bytes",
    "more than 65,536 bytes",
    "65,536 bytes",
    "20, 65,536 bytes",
    "256,545 bytes or more",
    "20, NULL",
    "21 before 20, NULL",
    "11, empty file, NULL",
    "11, file and room NULL",
    "11 before nothing else",
    "11 before 20, empty room",
];

fn main() -> ExitCode {
    let line_of = match std::env::args().nth(1).as_deref() {
        Some("input") => input_line,
        Some("expected") => expected_line,
        _ => {
            eprintln!("usage: cases_wkt input|expected");
            return ExitCode::from(2);
        }
    };
    let cases = chosen();
    let input: usize = cases.iter().map(|case| input_line(case).len()).sum();
    let few = cases.len() <= MOST_CASES && input <= MOST_INPUT;
    assert!(few && cases.iter().all(fits), "the test program has no memory for that");
    let text: String = cases.iter().map(line_of).collect();
    match io::stdout().write_all(text.as_bytes()) {
        Ok(()) => ExitCode::SUCCESS,
        Err(error) => {
            eprintln!("cannot write: {error}");
            ExitCode::FAILURE
        }
    }
}

fn fits(case: &Case) -> bool {
    case.file.len() <= MOST_FILE && case.room_length <= MOST_ROOM
}

/// Those that are known, then whatever is still rare, then any.
fn chosen() -> Vec<Case> {
    let mut random = Random::new(SEED);
    let mut tally = Tally::default();
    let mut cases = worked_by_hand();
    cases.extend(long_ones(&mut random));
    let known: Vec<usize> = cases.iter().flat_map(|case| rows_of(case, &tally)).collect();
    known.into_iter().for_each(|row| tally.rows[row].count += 1);
    let is_rare = |row: &Row| {
        row.count < SEVERAL && row.table != CLASS_TABLE && !OUT_OF_REACH.contains(&row.name.as_str())
    };
    while tally.rows.iter().any(is_rare) || cases.len() < CASES {
        let case = drawn(&mut random);
        let hit = rows_of(&case, &tally);
        let rare = tally.rows.iter().any(is_rare);
        if !rare || hit.iter().any(|row| is_rare(&tally.rows[*row])) {
            hit.iter().for_each(|row| tally.rows[*row].count += 1);
            cases.push(case);
        }
    }
    cases
}

/// The texts worked by hand. Of the rooms that are too short for the one with which the rules show what they
/// mean there are fewer, and others that are longer.
fn worked_by_hand() -> Vec<Case> {
    let left_out =
        |worked: &Worked| worked.number == ROOM_TOO_SHORT && worked.file == shown() && worked.room % 9 != 0;
    let mut cases: Vec<Case> = all()
        .into_iter()
        .filter(|worked| !left_out(worked))
        .map(|worked| Case { room_length: worked.room, id: worked.id, file: worked.file })
        .filter(fits)
        .collect();
    let length = SHOWN_TEXT.len();
    for room_length in (length - NEAR..=length + NEAR).chain([length + 20, 1_000, MOST_ROOM]) {
        cases.push(Case { room_length, id: 7, file: shown() });
    }
    cases.push(Case { room_length: 100, id: 0, file: too_many_recordings() });
    cases.push(Case { room_length: 0, id: 5, file: too_many_recordings() });
    cases
}

/// The first of 56 recordings, one between and the last, and two recordings of many triangles, each with a room
/// that is just too short, one that just fits and a longer one.
fn long_ones(random: &mut Random) -> Vec<Case> {
    let mut cases = Vec::new();
    let mut add = |draft: &Draft, k: usize| {
        let (file, id) = (draft.bytes(), draft.table[k].id);
        let length = wkt(&file, id, &mut [0; MOST_ROOM]).length;
        let rooms = [length - 1, length, length + 100];
        cases.extend(rooms.map(|room_length| Case { room_length, id, file: file.clone() }));
    };
    let many = good::made(random, 56, 1, at_changes);
    [0, 28, 55].iter().for_each(|k| add(&many, *k));
    add(&good::filled(random, 1, 16, at_changes), 0);
    add(&good::filled(random, 1, 40, widest), 0);
    cases
}

/// A file, an id and a room as a comparison takes them.
fn drawn(random: &mut Random) -> Case {
    loop {
        let file = CLASSES[draw(random)].file(random);
        if file.len() > SHORT_FILE {
            continue;
        }
        let coverage = Coverage::of(&file);
        let ids = ids_for(&coverage, random);
        if ids.is_empty() {
            continue;
        }
        let asked = Asked::of(&coverage, random.pick(&ids));
        let rooms = rooms_for(&asked, 1, random);
        let (id, room_length) = (asked.id, random.pick(&rooms));
        if room_length <= MOST_ROOM {
            return Case { room_length, id, file };
        }
    }
}

fn rows_of(case: &Case, tally: &Tally) -> Vec<usize> {
    let coverage = Coverage::of(&case.file);
    let fill = Fill::any(&mut Random::new(SEED));
    tally.rows_of(&Asked::of(&coverage, case.id), &Call { room: case.room_length, fill, null: [false; 2] })
}

fn input_line(case: &Case) -> String {
    let mut line = format!("{:04x} {:08x} ", case.room_length, case.id);
    append_bytes(&mut line, &case.file);
    line + "\n"
}

fn expected_line(case: &Case) -> String {
    let mut room = vec![UNWRITTEN; case.room_length];
    let written = wkt(&case.file, case.id, &mut room);
    let mut line = String::new();
    for number in [written.number, written.place, written.length as u32] {
        write!(line, "{number:08x} ").expect("a string takes all that is written to it");
    }
    append_bytes(&mut line, &room);
    line + "\n"
}

fn append_bytes(line: &mut String, bytes: &[u8]) {
    for byte in bytes {
        write!(line, "{byte:02x}").expect("a string takes all that is written to it");
    }
}
