//! Runs the library and the second program on the same drafts and rooms, and stops at the first file that
//! is written or refused differently, or that the reader does not give back.

use std::process::ExitCode;

use second::drafts::calls::{calls_of, rooms_for, NEAR};
use second::drafts::coverage::Coverage;
use second::drafts::draft::Draft;
use second::drafts::long::{Long, LONG};
use second::drafts::memory::{Memory, LONG_FILE};
use second::drafts::round_trips::{self, file_from, Side, SOURCES};
use second::drafts::shown::text_of;
use second::drafts::tally::Tally;
use second::drafts::worked::{all, example, in_turn, Worked};
use second::drafts::{draw, CLASSES};
use second::files::sets::as_training;
use second::files::shown;
use second::files::worked::EXAMPLE;
use second::footprint::{judge, recording, MOST_BYTES};
use second::library::{self, Lists};
use second::pages::{endless, endless_room};
use second::random::Random;
use second::tally::{covered, print_rows, Row};
use second::writer::{write, Handed, Written};

const SEED: u64 = 20_011_946;
const DRAFTS: usize = 20_400;
/// From this many drafts on everything counted must have been hit often enough.
const COVERING: usize = 20_400;
const ENOUGH: usize = 50;
/// For so many drafts, one file of each source is read and written again.
const DRAFTS_PER_FILE: usize = 34;

const SIDES: [Side; 2] = [
    Side { name: "library", check: library::check, recording: library::recording, write: library::write },
    Side { name: "second program", check: judge, recording, write },
];

fn main() -> ExitCode {
    let (seed, drafts) = match arguments() {
        Ok(found) => found,
        Err(message) => {
            eprintln!("{message}\nusage: compare_written [--seed S] [--drafts N]");
            return ExitCode::from(2);
        }
    };
    match compare_all(seed, drafts) {
        Err(report) => {
            println!("{report}");
            ExitCode::FAILURE
        }
        Ok((rows, rows_of_files)) => {
            print_rows(&rows);
            print_rows(&rows_of_files);
            if drafts >= COVERING && !all_covered(&rows, &rows_of_files) {
                return ExitCode::FAILURE;
            }
            println!("compared the files written from {drafts} drafts: no difference");
            ExitCode::SUCCESS
        }
    }
}

/// Whether everything was hit often enough; says of both tables what was not.
fn all_covered(rows: &[Row], rows_of_files: &[Row]) -> bool {
    let drafts = covered(rows, ENOUGH);
    covered(rows_of_files, round_trips::ENOUGH) && drafts
}

fn arguments() -> Result<(u64, usize), String> {
    let (mut seed, mut drafts) = (SEED, DRAFTS);
    let mut words = std::env::args().skip(1);
    while let Some(word) = words.next() {
        let value = words.next().and_then(|text| text.parse().ok());
        match (word.as_str(), value) {
            ("--seed", Some(value)) => seed = value,
            ("--drafts", Some(value)) => drafts = value as usize,
            _ => return Err(format!("cannot read '{word}' and what follows it")),
        }
    }
    Ok((seed, drafts))
}

/// Those that are known beforehand come first; the error is a report of the first difference.
fn compare_all(seed: u64, drafts: usize) -> Result<(Vec<Row>, Vec<Row>), String> {
    compare_endless()?;
    compare_null()?;
    let mut random = Random::new(seed);
    let mut memory = Memory::new(library::write_at, &SIDES);
    for (number, worked) in all().iter().enumerate() {
        compare_worked(worked, &mut memory, &mut random)
            .map_err(|report| format!("difference at draft {number} of those worked by hand\n{report}"))?;
    }
    for (number, draft) in in_turn().iter().enumerate() {
        let calls = calls_of(&[draft.length()], Coverage::of(draft).length(), &mut random);
        memory
            .compare(draft, &calls, &mut random)
            .map_err(|report| format!("difference at draft {number} of those in turn\n{report}"))?;
    }
    for long in &LONG {
        compare_long(long, &mut memory, &mut random)
            .map_err(|report| format!("difference at '{}'\n{report}", long.0))?;
    }
    let tally = compare_drafts(seed, drafts, &mut memory, &mut random)?;
    Ok((tally.rows, write_again(seed, drafts / DRAFTS_PER_FILE)?))
}

/// More than 2^32 sets, as many last bytes, then a room of more than 2^32 bytes.
fn compare_endless() -> Result<(), String> {
    let draft = example();
    for handed in [
        Handed { sets: endless(&draft.sets), ..draft.handed() },
        Handed { lasts: endless(&draft.lasts), ..draft.handed() },
    ] {
        let mut room = [46; EXAMPLE.len()];
        let of_library = library::write(handed, &mut room);
        if of_library != write(handed, &mut []) || room != [46; EXAMPLE.len()] {
            let lengths = [handed.sets.len(), handed.lasts.len()];
            return Err(format!("difference at so many sets and lasts: {lengths:?}\n{of_library:?}"));
        }
    }
    // To 32 bits one byte too few for the file, but there are many more.
    let front = vec![46; EXAMPLE.len() - 1];
    let (start, length) = endless_room(&front);
    let mut expected = [front, vec![0; MOST_BYTES]].concat();
    let of_second = write(draft.handed(), &mut expected);
    let lists = Lists {
        ids: (draft.ids.as_ptr(), 2),
        counts: (draft.counts.as_ptr(), 2),
        sets: (draft.sets.as_ptr(), 2),
        lasts: (draft.lasts.as_ptr(), 2),
        numbers: (draft.numbers.as_ptr(), draft.numbers.len()),
    };
    let of_library = unsafe { library::write_at(lists, start, length) };
    // The library is done with the room, and nobody else knows of it.
    let (front, back) = unsafe {
        let back = start.add(length - MOST_BYTES);
        (std::slice::from_raw_parts(start, expected.len()), std::slice::from_raw_parts(back, MOST_BYTES))
    };
    if of_library != of_second || front != expected || back.iter().any(|byte| *byte != 0) {
        return Err(format!("difference at a room of {length} bytes\n{of_library:?}"));
    }
    Ok(())
}

/// NULL for everything that is empty: all of it, one list, or the room.
fn compare_null() -> Result<(), String> {
    let example = example();
    let drafts = [
        Draft::default(),
        Draft { ids: Vec::new(), ..example.clone() },
        Draft { counts: Vec::new(), ..example.clone() },
        Draft { sets: Vec::new(), ..example.clone() },
        Draft { lasts: Vec::new(), ..example.clone() },
        Draft { numbers: Vec::new(), ..example.clone() },
        example,
    ];
    for draft in &drafts {
        for length in [0, 11, 12, 13, 100] {
            let (mut room, mut expected) = (vec![46; length], vec![46; length]);
            let of_library = library::write_with_null(draft.handed(), &mut room);
            let of_second = write(draft.handed(), &mut expected);
            if of_library != of_second || room != expected {
                let text = text_of(draft);
                return Err(format!("difference with NULL, room of {length}\n{of_library:?}\n{text}"));
            }
        }
    }
    Ok(())
}

/// A short file in every room up to a little more than it needs, a longer one in those near its length.
fn compare_worked(worked: &Worked, memory: &mut Memory, random: &mut Random) -> Result<(), String> {
    const SHORT: usize = 200;
    let draft = &worked.draft;
    let mut room = vec![0; worked.room];
    let known = Written { number: worked.number, place: 0, length: worked.file.len() };
    if write(draft.handed(), &mut room) != known || !room.starts_with(&worked.file) {
        return Err(unlike_known(draft));
    }
    let length = draft.length();
    let rooms: Vec<usize> = match worked.number {
        0 if length < SHORT => (0..=length + NEAR).collect(),
        0 => (length - NEAR..=length + NEAR).collect(),
        _ => vec![0, worked.room, length],
    };
    let length = Some(length).filter(|_| worked.number == 0);
    memory.compare(draft, &calls_of(&rooms, length, random), random)
}

fn compare_long(long: &Long, memory: &mut Memory, random: &mut Random) -> Result<(), String> {
    let Long(_, number, draft) = long;
    let draft = draft();
    if write(draft.handed(), &mut vec![0; draft.length()]).number != *number {
        return Err(unlike_known(&draft));
    }
    let rooms = [0, MOST_BYTES, draft.length()];
    memory.compare(&draft, &calls_of(&rooms, None, random), random)
}

fn unlike_known(draft: &Draft) -> String {
    format!("the second program has another answer than is known\n{}", text_of(draft))
}

fn compare_drafts(
    seed: u64,
    drafts: usize,
    memory: &mut Memory,
    random: &mut Random,
) -> Result<Tally, String> {
    let mut tally = Tally::default();
    for number in 0..drafts {
        let class = draw(random);
        let draft = CLASSES[class].draft(random);
        let coverage = Coverage::of(&draft);
        // The longer a call takes, the fewer rooms.
        let many = match draft.length() {
            0..=1_999 => 4,
            2_000..=LONG_FILE => 8,
            _ => 16,
        };
        let mut rooms = rooms_for(draft.length(), many, random);
        if draft.length() > LONG_FILE && !coverage.good() {
            random.shuffle(&mut rooms);
            rooms.truncate(2);
        }
        let calls = calls_of(&rooms, coverage.length(), random);
        memory.compare(&draft, &calls, random).map_err(|report| {
            let name = CLASSES[class].name();
            format!("difference at draft {number} of seed {seed}, class '{name}'\n{report}")
        })?;
        tally.count(class, &coverage, &calls);
    }
    Ok(tally)
}

/// Files of the other comparisons, by the library and by the second program.
fn write_again(seed: u64, files: usize) -> Result<Vec<Row>, String> {
    let mut random = Random::new(seed);
    let mut rows = round_trips::rows();
    for number in 0..SOURCES.len() * files {
        let source = number % SOURCES.len();
        let file = file_from(source, &mut random);
        for file in with_twin(file) {
            for side in &SIDES {
                let draft = side.write_again(&file).map_err(|report| {
                    let text = shown::text_of(&file);
                    format!(
                        "difference at file {number} of seed {seed} to be written again\n{report}\n{text}"
                    )
                })?;
                if side.name == SIDES[0].name {
                    round_trips::count(&mut rows, source, &draft);
                }
            }
        }
    }
    Ok(rows)
}

/// Where something is held back, the same file with training in its place goes with it.
fn with_twin(file: Vec<u8>) -> Vec<Vec<u8>> {
    let mut files = vec![as_training(&file), file];
    files.dedup();
    files
}
