//! One program over one workload, round after round: what an instruction counter is put on.

use std::process::ExitCode;

use second::arrival;
use second::corners::{self, Corner};
use second::footprint::{judge, Verdict, MOST_BYTES};
use second::leaks::{leaks, List};
use second::library;
use second::triangles;
use second::wkt::{wkt, MOST_TEXT};
use second::workloads::arrivals::{arrivals, Arrivals, Taker};
use second::workloads::texts::{night, Night, Wkt};
use second::workloads::tracks::{file_of_tracks, MOST_TRACKS};
use second::workloads::{fold, fold_corner, fold_list, fold_verdict, fold_written, FILE, WRITE};
use second::workloads::{
    largest_draft, largest_file, pairs, pairs_with_corners, place_of, unforeseen, Values,
};
use second::writer::{write, Handed, Written};

fn main() -> ExitCode {
    match checksum() {
        Some(sum) => {
            println!("{sum:016x}");
            ExitCode::SUCCESS
        }
        None => {
            eprintln!("usage: loop library|second WORKLOAD COUNT ROUNDS");
            eprintln!(
                "workloads: random, strips, far, corner-random, corner-strips, file, write, wkt, wkt-night,"
            );
            eprintln!("           arrival-LENGTH, leaks, diagonals, crowded-TIMES");
            ExitCode::from(2)
        }
    }
}

fn checksum() -> Option<u64> {
    let words: Vec<String> = std::env::args().skip(1).collect();
    let (side, workload, count, rounds) = match words.as_slice() {
        [side, workload, count, rounds] => (side, workload, count, rounds),
        _ => return None,
    };
    let (count, rounds): (usize, usize) = (count.parse().ok()?, rounds.parse().ok()?);
    if workload == FILE {
        return judgements(side, count * rounds);
    }
    if workload == WRITE {
        return files(side, count * rounds);
    }
    if let Some(night) = night(workload) {
        return texts(side, &night, count * rounds);
    }
    if let Some(arrivals) = arrivals(workload) {
        return pieces(side, &arrivals, count * rounds);
    }
    if let Some(file) = file_of_tracks(workload, count.min(MOST_TRACKS)) {
        return lists(side, &file, rounds);
    }
    if let Some(prepared) = pairs_with_corners(workload, count) {
        return corners_of(side, &prepared, rounds);
    }
    let prepared = pairs(workload, count)?;
    let round = match side.as_str() {
        "library" => library_round,
        "second" => second_round,
        _ => return None,
    };
    Some((0..rounds).fold(0, |sum, _| round(sum, &prepared)))
}

/// The same file again and again.
fn judgements(side: &str, count: usize) -> Option<u64> {
    let file = largest_file();
    let check: fn(&[u8]) -> Verdict = match side {
        "library" => library::check,
        "second" => judge,
        _ => return None,
    };
    Some((0..count).fold(0, |sum, _| fold_verdict(sum, check(unforeseen(&file)))))
}

/// The same one again and again, in the same room, which is looked at itself once.
fn files(side: &str, count: usize) -> Option<u64> {
    let write: fn(Handed, &mut [u8]) -> Written = match side {
        "library" => library::write,
        "second" => write,
        _ => return None,
    };
    let draft = largest_draft();
    let mut room = [0; MOST_BYTES];
    let sum = (0..count).fold(0, |sum, _| fold_written(sum, write(unforeseen(draft.handed()), &mut room)));
    Some(room.iter().fold(sum, |sum, byte| sum.rotate_left(7) ^ u64::from(*byte)))
}

/// Those of all recordings again and again, in the same room, which is looked at itself once.
fn texts(side: &str, night: &Night, count: usize) -> Option<u64> {
    let wkt: Wkt = match side {
        "library" => library::wkt,
        "second" => wkt,
        _ => return None,
    };
    let mut room = vec![0; MOST_TEXT];
    let sum = (0..count).fold(0, |sum, _| night.round(sum, wkt, &mut room));
    Some(room.iter().fold(sum, |sum, byte| sum.rotate_left(7) ^ u64::from(*byte)))
}

/// Of one file again and again, into the same buffer, which is looked at itself once.
fn pieces(side: &str, arrivals: &Arrivals, count: usize) -> Option<u64> {
    let taker = match side {
        "library" => Taker { piece: library::piece, end: library::end },
        "second" => Taker { piece: arrival::piece, end: arrival::end },
        _ => return None,
    };
    let mut buffer = vec![0; MOST_BYTES];
    let sum = (0..count).fold(0, |sum, _| arrivals.round(sum, taker, &mut buffer));
    Some(buffer.iter().fold(sum, |sum, byte| sum.rotate_left(7) ^ u64::from(*byte)))
}

/// Of one file again and again. The last list is looked at itself, once, and its tested pairs are printed.
fn lists(side: &str, file: &[u8], rounds: usize) -> Option<u64> {
    let list: fn(&[u8], &mut [u8]) -> List = match side {
        "library" => library::leaks,
        "second" => leaks,
        _ => return None,
    };
    let mut room = [0; MOST_BYTES];
    let (mut sum, mut tested) = (0, 0);
    for _ in 0..rounds {
        let answer = list(unforeseen(file), &mut room);
        sum = fold_list(sum, answer);
        tested = answer.tested;
    }
    println!("tested {tested}");
    let written = room.iter().take_while(|byte| **byte != 0);
    Some(written.fold(sum, |sum, byte| sum.rotate_left(7) ^ u64::from(*byte)))
}

/// One of each pair.
fn corners_of(side: &str, pairs: &[Values], rounds: usize) -> Option<u64> {
    match side {
        "library" => Some((0..rounds).fold(0, |sum, _| corner_round(sum, pairs, library::corner_at))),
        "second" => Some((0..rounds).fold(0, |sum, _| corner_round(sum, pairs, corners::corner_at))),
        _ => None,
    }
}

#[inline]
fn corner_round(mut sum: u64, pairs: &[Values], corner_at: impl Fn(&[f64], usize) -> Corner) -> u64 {
    for (pair, values) in pairs.iter().enumerate() {
        sum = fold_corner(sum, corner_at(unforeseen(values), place_of(pair)));
    }
    sum
}

fn library_round(mut sum: u64, pairs: &[Values]) -> u64 {
    let mut room = [0.0; 12];
    for values in pairs {
        let answer = library::intersect(unforeseen(values), &mut room);
        sum = fold(sum, answer.number, answer.n, answer.area);
    }
    sum
}

fn second_round(mut sum: u64, pairs: &[Values]) -> u64 {
    let mut room = [0.0; 12];
    for values in pairs {
        let answer = triangles::intersect(unforeseen(values), &mut room);
        sum = fold(sum, answer.number, answer.n, answer.area);
    }
    sum
}
