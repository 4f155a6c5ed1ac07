//! Runs the library and the second program on the same pieces and ends, call by call, and stops at the first
//! difference between them, or between a file that comes in pieces and the whole.

use std::process::ExitCode;

use second::arrival::{end, piece, Arrival, State};
use second::files::worked::{all as all_files, EXAMPLE, SHORTEST};
use second::footprint::MOST_BYTES;
use second::library;
use second::pages::{endless, endless_room};
use second::random::Random;
use second::runs::memory::{Library, Memory};
use second::runs::run::{self, Fill, Run};
use second::runs::tally::Tally;
use second::runs::worked::{all, Answer, Worked};
use second::runs::{cuts, draw, CLASSES};
use second::tally::{covered, print_rows};
use second::workloads::largest_file;

const SEED: u64 = 20_011_946;
const RUNS: usize = 60_000;
/// From this many runs on everything counted must have been hit often enough.
const COVERING: usize = 60_000;
const ENOUGH: usize = 50;
/// A longer file is not cut at every place.
const SHORT_FILE: usize = 200;

const LIBRARY: Library = Library {
    piece: library::piece_at,
    end: library::end_at,
    check: library::check,
    recording: library::recording,
    leaks: library::leaks,
    wkt: library::wkt,
};

fn main() -> ExitCode {
    let (seed, runs) = match arguments() {
        Ok(found) => found,
        Err(message) => {
            eprintln!("{message}\nusage: compare_runs [--seed S] [--runs N]");
            return ExitCode::from(2);
        }
    };
    match compare_all(seed, runs) {
        Err(report) => {
            println!("{report}");
            ExitCode::FAILURE
        }
        Ok(tally) => {
            print_rows(&tally.rows);
            if runs >= COVERING && !covered(&tally.rows, ENOUGH) {
                return ExitCode::FAILURE;
            }
            println!("compared {runs} runs of pieces and ends: no difference");
            ExitCode::SUCCESS
        }
    }
}

fn arguments() -> Result<(u64, usize), String> {
    let (mut seed, mut runs) = (SEED, RUNS);
    let mut words = std::env::args().skip(1);
    while let Some(word) = words.next() {
        let value = words.next().and_then(|text| text.parse().ok());
        match (word.as_str(), value) {
            ("--seed", Some(value)) => seed = value,
            ("--runs", Some(value)) => runs = value as usize,
            _ => return Err(format!("cannot read '{word}' and what follows it")),
        }
    }
    Ok((seed, runs))
}

/// Those that are known beforehand come first; the error is a report of the first difference.
fn compare_all(seed: u64, runs: usize) -> Result<Tally, String> {
    compare_endless_pieces()?;
    compare_endless_buffers()?;
    let mut random = Random::new(seed);
    let mut memory = Memory::new(LIBRARY);
    for (number, worked) in all().iter().enumerate() {
        compare_worked(worked, &mut memory, &mut random)
            .map_err(|report| format!("difference at run {number} of those worked by hand\n{report}"))?;
    }
    for (number, run) in in_turn().iter().enumerate() {
        memory
            .compare(run, &mut random)
            .map_err(|report| format!("difference at run {number} of those in turn\n{report}"))?;
    }
    let mut tally = Tally::default();
    for number in 0..runs {
        let class = draw(&mut random);
        let run = CLASSES[class].run(&mut random);
        let calls = memory.compare(&run, &mut random).map_err(|report| {
            let name = CLASSES[class].name();
            format!("difference at run {number} of seed {seed}, class '{name}'\n{report}")
        })?;
        tally.count(class, &calls);
    }
    Ok(tally)
}

/// Pieces of more than 2^32 bytes, one after the other, and pieces that have more together: to 32 bits it is the
/// example that has come, or a buffer full.
fn compare_endless_pieces() -> Result<(), String> {
    const PAST_32_BITS: usize = (1u64 << 32) as usize;
    let front = [&EXAMPLE[..], &Fill::Rising(9).bytes(2 * MOST_BYTES)].concat();
    let long = endless(&front);
    let (mebibyte, mebibytes) = (&long[..1 << 20], 1 << 12);
    let mut many = vec![mebibyte; mebibytes];
    many.push(&EXAMPLE);
    let pieces = [
        vec![&long[..PAST_32_BITS], &EXAMPLE],
        vec![&EXAMPLE, &long[..PAST_32_BITS]],
        vec![&long[..PAST_32_BITS + EXAMPLE.len()]],
        vec![&EXAMPLE, &long[..PAST_32_BITS - EXAMPLE.len()]],
        vec![&EXAMPLE, &long[..PAST_32_BITS - EXAMPLE.len() + 12], &[]],
        vec![&long[..PAST_32_BITS + MOST_BYTES], &SHORTEST],
        vec![&long[..PAST_32_BITS - 1], &long[..PAST_32_BITS - 1], &long[..86]],
        vec![&long[..PAST_32_BITS / 2], &long[..PAST_32_BITS / 2], &EXAMPLE],
        many,
    ];
    for (number, pieces) in pieces.iter().enumerate() {
        let mut buffers = [Fill::Rising(1).bytes(MOST_BYTES), Fill::Rising(1).bytes(MOST_BYTES)];
        let [of_library, of_second] = &mut buffers;
        let mut state = State::default();
        for bytes in pieces {
            let answers = [library::piece(state, bytes, of_library), piece(state, bytes, of_second)];
            same(answers, of_library == of_second).map_err(|report| {
                format!("difference at pieces {number} of more than 2^32 bytes\n{report}")
            })?;
            state = answers[1].state();
        }
        let answers = [library::end(state, of_library), end(state, of_second)];
        same(answers, of_library == of_second).map_err(|report| {
            format!("difference at the end of pieces {number} of more than 2^32 bytes\n{report}")
        })?;
    }
    Ok(())
}

/// Buffers of more than 2^32 bytes, one of which has to 32 bits the length that it must have.
fn compare_endless_buffers() -> Result<(), String> {
    let front = Fill::Rising(1).bytes(MOST_BYTES + 1);
    let (start, longest) = endless_room(&front);
    for length in
        [longest - 1, longest, longest - 2, longest - front.len(), longest - front.len() + EXAMPLE.len()]
    {
        for (arrived, ended) in [(0, 0), (84, 0), (65_536, 0), (65_537, 0), (84, 1), (84, 2), (u32::MAX, 0)] {
            let state = State { arrived, ended };
            // Nobody else knows of this memory.
            let answers = unsafe {
                [
                    library::piece_at(state, EXAMPLE.as_ptr(), EXAMPLE.len(), start, length),
                    library::piece_at(state, EXAMPLE.as_ptr(), 0, start, length),
                    library::end_at(state, start, length),
                ]
            };
            let expected = Arrival { number: 23, place: 0, arrived, ended };
            let (held, behind) = unsafe {
                let back = start.add(longest - front.len());
                let behind = std::slice::from_raw_parts(start.add(front.len()), 2 * MOST_BYTES);
                let back = std::slice::from_raw_parts(back, front.len());
                (std::slice::from_raw_parts(start, front.len()), [behind, back].concat())
            };
            if answers != [expected; 3] || held != front || behind.iter().any(|byte| *byte != 0) {
                return Err(format!("difference at a buffer of {length} bytes\n{state:?}\n{answers:?}"));
            }
        }
    }
    Ok(())
}

fn same(answers: [Arrival; 2], buffers_too: bool) -> Result<(), String> {
    let [of_library, of_second] = answers;
    if of_library == of_second && buffers_too {
        return Ok(());
    }
    let buffers = if buffers_too { "the same" } else { "not the same" };
    Err(format!("  library {of_library:?}\n  second  {of_second:?}\n  the buffers are {buffers}"))
}

/// What is known of it is looked at as well.
fn compare_worked(worked: &Worked, memory: &mut Memory, random: &mut Random) -> Result<(), String> {
    let calls = memory.compare(&worked.run, random)?;
    let answers: Vec<Answer> = calls
        .iter()
        .map(|called| {
            let Arrival { number, place, arrived, ended } = called.answer;
            [number, place, arrived, ended]
        })
        .collect();
    if answers != worked.answers {
        return Err(format!("the second program has other answers than are known\n{answers:?}"));
    }
    Ok(())
}

/// Every short file worked by hand, cut in two at every place and byte by byte; a long one byte by byte, and then
/// some more.
fn in_turn() -> Vec<Run> {
    let mut runs = Vec::new();
    let mut add = |steps: Vec<run::Step>| {
        let fill = Fill::Rising(runs.len() as u8);
        runs.push(Run { fill, steps: [steps, vec![run::end(), run::end()]].concat() });
    };
    for known in all_files().iter().filter(|known| known.file.len() <= SHORT_FILE) {
        (0..=known.file.len()).for_each(|place| add(cuts::at(&known.file, vec![place])));
        add(cuts::even(&known.file, 1));
    }
    let long = [largest_file(), vec![7; 10]].concat();
    add(cuts::even(&long[..65_532], 1));
    add(cuts::even(&long, 1));
    runs
}
