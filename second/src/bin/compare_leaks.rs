//! Runs the library and the second program on the same files and rooms, and stops at the first leak
//! list that differs.

use std::process::ExitCode;

use second::files::shown::text_of;
use second::files::worked::{in_turn, EXAMPLE};
use second::footprint::{Refused, MOST_BYTES};
use second::leaks::{leaks, whole_list, written, Whole};
use second::library;
use second::lists::coverage::Coverage;
use second::lists::largest::{self, Large};
use second::lists::rooms::{rooms_for, unwritten, Room};
use second::lists::tally::Tally;
use second::lists::twins::Side;
use second::lists::worked::EXAMPLE_LIST;
use second::lists::{draw, pairs_in, CLASSES};
use second::pages::{endless, endless_room, Pages};
use second::random::Random;
use second::tally::{covered, print_rows};

const SEED: u64 = 20_011_946;
const FILES: usize = 6_000;
/// From this many files on everything counted must have been hit often enough.
const COVERING: usize = 6_000;
const ENOUGH: usize = 20;

const SIDES: [Side; 2] =
    [Side { name: "library", leaks: library::leaks }, Side { name: "second program", leaks }];

fn main() -> ExitCode {
    let (seed, files) = match arguments() {
        Ok(found) => found,
        Err(message) => {
            eprintln!("{message}\nusage: compare_leaks [--seed S] [--files N]");
            return ExitCode::from(2);
        }
    };
    match compare_all(seed, files) {
        Err(report) => {
            println!("{report}");
            ExitCode::FAILURE
        }
        Ok(tally) => {
            print_rows(&tally.rows);
            if files >= COVERING && !covered(&tally.rows, ENOUGH) {
                return ExitCode::FAILURE;
            }
            println!("compared the leak lists of {files} files: no difference");
            ExitCode::SUCCESS
        }
    }
}

fn arguments() -> Result<(u64, usize), String> {
    let (mut seed, mut files) = (SEED, FILES);
    let mut words = std::env::args().skip(1);
    while let Some(word) = words.next() {
        let value = words.next().and_then(|text| text.parse().ok());
        match (word.as_str(), value) {
            ("--seed", Some(value)) => seed = value,
            ("--files", Some(value)) => files = value as usize,
            _ => return Err(format!("cannot read '{word}' and what follows it")),
        }
    }
    Ok((seed, files))
}

/// The error is a report of the first difference.
fn compare_all(seed: u64, files: usize) -> Result<Tally, String> {
    compare_endless()?;
    let mut random = Random::new(seed);
    let mut memory = Memory::new();
    let rooms: Vec<Room> = (0..=EXAMPLE_LIST.len() + 3).map(Room::of).collect();
    memory
        .compare(&EXAMPLE, &whole_list(&EXAMPLE), &rooms, &mut random)
        .map_err(|report| format!("difference at the example\n{report}"))?;
    for large in largest::all() {
        compare_large(&large, &mut memory, &mut random)
            .map_err(|report| format!("difference at '{}'\n{report}", large.name))?;
    }
    let mut tally = Tally::default();
    let mut fixed = in_turn(&EXAMPLE).into_iter();
    for number in 0..files {
        let (class, file) = match fixed.next() {
            Some(file) => (Tally::IN_TURN, file),
            None => {
                let class = draw(&mut random);
                (class, CLASSES[class].file(&mut random))
            }
        };
        let whole = whole_list(&file);
        let coverage = Coverage::of(&file, &whole);
        // The longer a call takes, the fewer rooms.
        let many = match pairs_in(&file) {
            0..=20 if file.len() < 8_192 => 1,
            0..=200 => 4,
            _ => 12,
        };
        let rooms = rooms_for(coverage.text(), many, &mut random);
        let compared = memory.compare(&file, &whole, &rooms, &mut random);
        compared.and_then(|()| compare_with_twins(&file, &coverage)).map_err(|report| {
            let name = &tally.rows[class].name;
            format!("difference at file {number} of seed {seed}, class '{name}'\n{report}")
        })?;
        tally.count(class, &coverage, &rooms);
    }
    Ok(tally)
}

/// More than 2^32 bytes of a file, and then of a room.
fn compare_endless() -> Result<(), String> {
    let file = endless(&EXAMPLE);
    let mut room = unwritten(100);
    let of_library = library::leaks(file, &mut room);
    let of_second = written(&whole_list(file), &mut []);
    if of_library != of_second || room != unwritten(100) {
        return Err(format!("difference at a file of {} bytes\n{of_library:?}", file.len()));
    }
    // To 32 bits one byte too few for the list, but there are many more.
    let front = unwritten(EXAMPLE_LIST.len() - 1);
    let (start, length) = endless_room(&front);
    let mut expected = [front, vec![0; MOST_BYTES]].concat();
    let of_second = written(&whole_list(&EXAMPLE), &mut expected);
    let of_library = unsafe { library::leaks_at(EXAMPLE.as_ptr(), EXAMPLE.len(), start, length) };
    // The library is done with the room, and nobody else knows of it.
    let (front, back) = unsafe {
        let back = start.add(length - MOST_BYTES);
        (std::slice::from_raw_parts(start, expected.len()), std::slice::from_raw_parts(back, MOST_BYTES))
    };
    if of_library != of_second || front != expected || back.iter().any(|byte| *byte != 0) {
        return Err(format!("difference at a room of {length} bytes\n{of_library:?}"));
    }
    Ok(())
}

/// Either program, each with its own lists. Where nothing is held back there is no twin, and no other one where
/// no test goes by the second edition.
fn compare_with_twins(file: &[u8], coverage: &Coverage) -> Result<(), String> {
    for side in &SIDES {
        let shown = |report: String| report + &text_of(file);
        if coverage.held_back() > 0 {
            side.same_as_twin(file).map_err(shown)?;
        }
        if coverage.of_the_second_edition() {
            side.has_lines_of_twin(file).map_err(shown)?;
        }
    }
    Ok(())
}

/// What is known of its list beforehand is looked at as well.
fn compare_large(large: &Large, memory: &mut Memory, random: &mut Random) -> Result<(), String> {
    let whole = whole_list(&large.file);
    if !whole.as_ref().map_or(false, |whole| whole.text == large.list && whole.tested == large.tested) {
        return Err("the second program has another list, or tested others, than is known".to_string());
    }
    let mut rooms = vec![Room::of(large.list.len())];
    if !large.slow {
        rooms.push(Room::of(large.list.len() - 1));
    }
    memory.compare(&large.file, &whole, &rooms, random)
}

struct Memory {
    for_files: Pages,
    for_rooms: Pages,
    /// What any room holds before it is lent.
    unwritten: Vec<u8>,
}

impl Memory {
    fn new() -> Self {
        let (for_files, for_rooms) = (Pages::default(), Pages::default());
        Memory { for_files, for_rooms, unwritten: unwritten(2 * MOST_BYTES) }
    }

    /// The file is lent once and the rooms in turn, each at any kind of place.
    fn compare(
        &mut self,
        file: &[u8],
        whole: &Result<Whole, Refused>,
        rooms: &[Room],
        random: &mut Random,
    ) -> Result<(), String> {
        let null = std::ptr::null_mut();
        let lent_file = self.for_files.lend(file, random);
        let file_at = if file.is_empty() && random.once_in(2) { null } else { lent_file.start };
        let mut differences = String::new();
        for room in rooms {
            let mut expected = self.unwritten[..room.length].to_vec();
            let lent_room = self.for_rooms.lend(&expected, random);
            let room_at = if room.null { null } else { lent_room.start };
            // Both are lent as a whole, or empty, and from different memory.
            let of_library = unsafe { library::leaks_at(file_at, file.len(), room_at, room.length) };
            let of_second = written(whole, &mut expected);
            if of_library != of_second {
                differences += &format!("answer\n  library {of_library:?}\n  second  {of_second:?}\n");
            }
            if !lent_room.holds(&expected) {
                differences += &contents(lent_room.contents(), &expected);
            }
            if !lent_room.has_its_guards() {
                differences += "the memory around the room was written to\n";
            }
            if !differences.is_empty() {
                return Err(format!("{room:?}\n{differences}{}", text_of(file)));
            }
        }
        if !lent_file.holds(file) {
            differences += "the file was written to\n";
        }
        if !lent_file.has_its_guards() {
            differences += "the memory around the file was written to\n";
        }
        if differences.is_empty() {
            return Ok(());
        }
        Err(differences + &text_of(file))
    }
}

/// What the two rooms hold from a little before the first byte that differs.
fn contents(of_library: &[u8], of_second: &[u8]) -> String {
    let differs = |k: &usize| of_library[*k] != of_second[*k];
    let first = (0..of_second.len()).find(differs).unwrap_or(0);
    let shown = |room: &[u8]| {
        let text: Vec<u8> = room.iter().skip(first.saturating_sub(40)).take(120).copied().collect();
        String::from_utf8_lossy(&text).into_owned()
    };
    let (library, second) = (shown(of_library), shown(of_second));
    format!("room, from byte {first} on\n  library {library:?}\n  second  {second:?}\n")
}
