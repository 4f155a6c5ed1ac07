//! Runs the library and the second program on the same files, ids and rooms, and stops at the first
//! well-known text that differs, or that is not read back as the triangles that are stored.

use std::process::ExitCode;

use second::files::worked::EXAMPLE;
use second::footprint::MOST_BYTES;
use second::library;
use second::pages::{endless, endless_room};
use second::random::Random;
use second::tally::{covered, print_rows};
use second::texts::asked::Asked;
use second::texts::calls::{calls_of, every_room, rooms_for, NEAR};
use second::texts::coverage::Coverage;
use second::texts::ids::ids_for;
use second::texts::memory::Memory;
use second::texts::tally::Tally;
use second::texts::worked::{all, shown, Worked, SHOWN_TEXT};
use second::texts::{draw, every, longest, CLASSES};
use second::wkt::{wkt, MOST_TEXT};
use second::writer::Written;

const SEED: u64 = 20_011_946;
const FILES: usize = 6_000;
/// From this many files on everything counted must have been hit often enough.
const COVERING: usize = 6_000;
const ENOUGH: usize = 30;
/// A longer text is not tried in every room.
const SHORT_TEXT: usize = 500;

fn main() -> ExitCode {
    let (seed, files) = match arguments() {
        Ok(found) => found,
        Err(message) => {
            eprintln!("{message}\nusage: compare_wkt [--seed S] [--files N]");
            return ExitCode::from(2);
        }
    };
    match compare_all(seed, files) {
        Err(report) => {
            println!("{report}");
            ExitCode::FAILURE
        }
        Ok(tally) => {
            print_rows(&tally.rows);
            if files >= COVERING && !covered(&tally.rows, ENOUGH) {
                return ExitCode::FAILURE;
            }
            println!("compared the well-known texts of {files} files: no difference");
            ExitCode::SUCCESS
        }
    }
}

fn arguments() -> Result<(u64, usize), String> {
    let (mut seed, mut files) = (SEED, FILES);
    let mut words = std::env::args().skip(1);
    while let Some(word) = words.next() {
        let value = words.next().and_then(|text| text.parse().ok());
        match (word.as_str(), value) {
            ("--seed", Some(value)) => seed = value,
            ("--files", Some(value)) => files = value as usize,
            _ => return Err(format!("cannot read '{word}' and what follows it")),
        }
    }
    Ok((seed, files))
}

/// Those that are known beforehand come first; the error is a report of the first difference.
fn compare_all(seed: u64, files: usize) -> Result<Tally, String> {
    compare_endless()?;
    let mut random = Random::new(seed);
    let mut memory = Memory::new(library::wkt_at);
    for (number, worked) in all().iter().enumerate() {
        compare_worked(worked, &mut memory, &mut random)
            .map_err(|report| format!("difference at text {number} of those worked by hand\n{report}"))?;
    }
    compare_longest(&mut memory, &mut random)
        .map_err(|report| format!("difference at the longest text\n{report}"))?;
    for number in 0..every::FILES {
        let (file, id) = every::file(number);
        compare_numbers(&file, id, &mut memory, &mut random)
            .map_err(|report| format!("difference at file {number} of all numbers\n{report}"))?;
    }
    let mut tally = Tally::default();
    for number in 0..files {
        let class = draw(&mut random);
        let file = CLASSES[class].file(&mut random);
        compare_file(&file, &mut memory, &mut random, &mut tally).map_err(|report| {
            let name = CLASSES[class].name();
            format!("difference at file {number} of seed {seed}, class '{name}'\n{report}")
        })?;
        tally.count_file(class);
    }
    Ok(tally)
}

/// More than 2^32 bytes of a file, and then of a room.
fn compare_endless() -> Result<(), String> {
    let file = endless(&EXAMPLE);
    let mut room = [46; 100];
    let of_library = library::wkt(file, 7, &mut room);
    if of_library != wkt(file, 7, &mut []) || room != [46; 100] {
        return Err(format!("difference at a file of {} bytes\n{of_library:?}", file.len()));
    }
    // To 32 bits one byte too few for the text, but there are many more.
    let front = vec![46; SHOWN_TEXT.len() - 1];
    let (start, length) = endless_room(&front);
    let mut expected = [front, vec![0; MOST_BYTES]].concat();
    let file = shown();
    let of_second = wkt(&file, 7, &mut expected);
    let of_library = unsafe { library::wkt_at(file.as_ptr(), file.len(), 7, start, length) };
    // The library is done with the room, and nobody else knows of it.
    let (front, back) = unsafe {
        let back = start.add(length - MOST_BYTES);
        (std::slice::from_raw_parts(start, expected.len()), std::slice::from_raw_parts(back, MOST_BYTES))
    };
    if of_library != of_second || front != expected || back.iter().any(|byte| *byte != 0) {
        return Err(format!("difference at a room of {length} bytes\n{of_library:?}"));
    }
    Ok(())
}

/// A short text in every room up to a little more than it needs; what is known of it is looked at as well.
fn compare_worked(worked: &Worked, memory: &mut Memory, random: &mut Random) -> Result<(), String> {
    let coverage = Coverage::of(&worked.file);
    let asked = Asked::of(&coverage, worked.id);
    let mut room = vec![46; worked.room];
    if wkt(&worked.file, worked.id, &mut room) != worked.answer() || !room.starts_with(worked.text.as_bytes())
    {
        return Err("the second program has another answer than is known".to_string());
    }
    let rooms = match worked.number {
        0 if worked.text.len() < SHORT_TEXT => every_room(&asked),
        0 => rooms_for(&asked, 1, random),
        _ => vec![0, worked.room, 2_000],
    };
    memory.compare(&asked, &calls_of(&rooms, &asked, random), random)
}

fn compare_longest(memory: &mut Memory, random: &mut Random) -> Result<(), String> {
    let file = longest::file();
    let coverage = Coverage::of(&file);
    let asked = Asked::of(&coverage, longest::ID);
    let known = Written { number: 0, place: 0, length: MOST_TEXT };
    if asked.answer != known || asked.text != longest::text().as_bytes() {
        return Err("the second program has another text than is known".to_string());
    }
    let mut rooms = rooms_for(&asked, 1, random);
    rooms.extend([MOST_TEXT / 2, MOST_TEXT + MOST_BYTES, 1_000_000]);
    // To 16 bits these would do.
    rooms.extend([MOST_TEXT % MOST_BYTES, MOST_TEXT - MOST_BYTES]);
    memory.compare(&asked, &calls_of(&rooms, &asked, random), random)
}

/// One of the files that together have every number in every place.
fn compare_numbers(file: &[u8], id: u32, memory: &mut Memory, random: &mut Random) -> Result<(), String> {
    let coverage = Coverage::of(file);
    let asked = Asked::of(&coverage, id);
    if !asked.answered() {
        return Err(format!("the second program says {:?}", asked.answer));
    }
    let room = asked.length() + random.below(NEAR);
    memory.compare(&asked, &calls_of(&[room], &asked, random), random)
}

/// Every recording, and ids that are not there, each with some rooms.
fn compare_file(
    file: &[u8],
    memory: &mut Memory,
    random: &mut Random,
    tally: &mut Tally,
) -> Result<(), String> {
    let coverage = Coverage::of(file);
    for id in ids_for(&coverage, random) {
        let asked = Asked::of(&coverage, id);
        // The longer a call takes, the fewer rooms.
        let many = match file.len() + asked.length() {
            0..=3_999 => 3,
            4_000..=29_999 => 8,
            _ => 24,
        };
        let every = asked.answered() && asked.length() < SHORT_TEXT && random.once_in(30);
        let rooms = if every { every_room(&asked) } else { rooms_for(&asked, many, random) };
        let calls = calls_of(&rooms, &asked, random);
        memory.compare(&asked, &calls, random)?;
        tally.count(&asked, &calls);
    }
    Ok(())
}
