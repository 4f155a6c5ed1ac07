//! Runs the library and the second program on the same files and stops at the first difference.

use std::fmt::Debug;
use std::process::ExitCode;

use second::files::coverage::Coverage;
use second::files::faults::trailer_of;
use second::files::shown::text_of;
use second::files::tally::Tally;
use second::files::worked::{in_turn, EXAMPLE};
use second::files::{draw, CLASSES};
use second::footprint::{judge, recording};
use second::library;
use second::pages::{endless, Pages};
use second::random::Random;
use second::tally::{covered, print_rows};

const SEED: u64 = 20_011_946;
const FILES: usize = 60_000;
/// From this many files on everything counted must have been hit often enough.
const COVERING: usize = 50_000;
const ENOUGH: usize = 50;
/// A longer file is asked for fewer of its recordings: each time it is judged anew.
const LONG: usize = 8_192;

fn main() -> ExitCode {
    let (seed, files) = match arguments() {
        Ok(found) => found,
        Err(message) => {
            eprintln!("{message}\nusage: compare_files [--seed S] [--files N]");
            return ExitCode::from(2);
        }
    };
    match compare_all(seed, files) {
        Err(report) => {
            println!("{report}");
            ExitCode::FAILURE
        }
        Ok(tally) => {
            print_rows(&tally.rows);
            if files >= COVERING && !covered(&tally.rows, ENOUGH) {
                return ExitCode::FAILURE;
            }
            println!("compared {files} files: no difference");
            ExitCode::SUCCESS
        }
    }
}

fn arguments() -> Result<(u64, usize), String> {
    let (mut seed, mut files) = (SEED, FILES);
    let mut words = std::env::args().skip(1);
    while let Some(word) = words.next() {
        let value = words.next().and_then(|text| text.parse().ok());
        match (word.as_str(), value) {
            ("--seed", Some(value)) => seed = value,
            ("--files", Some(value)) => files = value as usize,
            _ => return Err(format!("cannot read '{word}' and what follows it")),
        }
    }
    Ok((seed, files))
}

/// The files that go in turn come first; the error is a report of the first difference.
fn compare_all(seed: u64, files: usize) -> Result<Tally, String> {
    compare_endless()?;
    let mut random = Random::new(seed);
    let mut tally = Tally::default();
    let mut pages = Pages::default();
    let mut fixed = in_turn(&EXAMPLE).into_iter();
    for number in 0..files {
        let (class, file) = match fixed.next() {
            Some(file) => (Tally::IN_TURN, file),
            None => {
                let class = draw(&mut random);
                (class, CLASSES[class].file(&mut random))
            }
        };
        let asked = numbers_asked(&file, &mut random);
        compare(&file, &asked, &mut pages, &mut random).map_err(|report| {
            let name = &tally.rows[class].name;
            format!("difference at file {number} of seed {seed}, class '{name}'\n{report}")
        })?;
        let coverage = Coverage::of(&file);
        tally.count(class, &coverage);
        asked.iter().for_each(|k| tally.count_asked(&coverage, *k));
    }
    Ok(tally)
}

/// More than 2^32 bytes, of which the first are a good file to whoever counts to 32 bits.
fn compare_endless() -> Result<(), String> {
    let file = endless(&EXAMPLE);
    let mut differences = String::new();
    look(&mut differences, "verdict", library::check(file), judge(file));
    for k in [0, 1, 2, usize::MAX] {
        look(&mut differences, &format!("recording {k}"), library::recording(file, k), recording(file, k));
    }
    if differences.is_empty() {
        return Ok(());
    }
    Err(format!("difference at a file of {} bytes\n{differences}", file.len()))
}

fn look<T: PartialEq + Debug>(differences: &mut String, what: &str, of_library: T, of_second: T) {
    if of_library != of_second {
        *differences += &format!("{what}\n  library {of_library:?}\n  second  {of_second:?}\n");
    }
}

/// Numbers of recordings around the ends of the table and of their type, and any.
fn numbers_asked(file: &[u8], random: &mut Random) -> Vec<usize> {
    let past_32_bits = (1u64 << 32) as usize;
    let count = trailer_of(file).map_or(0, |trailer| trailer.recordings) as usize;
    let last = count.saturating_sub(1);
    let some = random.below(count.clamp(1, 64));
    let mut all = vec![0, last, count, count + 1, some, past_32_bits, past_32_bits + some, usize::MAX];
    all.push(random.bits() as usize);
    all.push(random.below(65));
    all.sort_unstable();
    all.dedup();
    while file.len() > LONG && all.len() > 3 {
        all.swap_remove(random.below(all.len()));
    }
    all
}

/// The file is lent for every call, at any kind of place; an empty one at times as NULL.
fn compare(file: &[u8], asked: &[usize], pages: &mut Pages, random: &mut Random) -> Result<(), String> {
    let with_null = file.is_empty() && random.once_in(2);
    let lent = pages.lend(file, random);
    let start = if with_null { std::ptr::null_mut() } else { lent.start };
    let mut differences = String::new();
    // The whole file is lent, or it is empty.
    let of_library = unsafe { library::check_at(start, file.len()) };
    look(&mut differences, "verdict", of_library, judge(file));
    for &k in asked {
        let of_library = unsafe { library::recording_at(start, file.len(), k) };
        look(&mut differences, &format!("recording {k}"), of_library, recording(file, k));
    }
    if !lent.holds(file) {
        differences += "the file was written to\n";
    }
    if !lent.has_its_guards() {
        differences += "the memory around the file was written to\n";
    }
    if differences.is_empty() {
        return Ok(());
    }
    Err(differences + &text_of(file))
}
