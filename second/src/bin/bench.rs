//! Time a pair and time a byte, the library and the second program in turn over the same input.
//! A pair is given by itself, for an answer or for a corner, or is one of a file's whose leaks are listed; a
//! byte is one of a file's that is judged or written or arrives in pieces, or of a well-known text's.

use std::process::ExitCode;
use std::time::Instant;

use second::arrival;
use second::corners::{self, Corner};
use second::decision::decide;
use second::footprint::{self, Entry, Verdict, MOST_BYTES};
use second::leaks::{self, List};
use second::library;
use second::triangles;
use second::wkt::wkt;
use second::workloads::arrivals::{arrivals, Arrivals, Taker, ARRIVALS};
use second::workloads::texts::{night, Night, TEXTS};
use second::workloads::tracks::{file_of_tracks, pairs_of_tracks, DIAGONALS, LEAKS, MOST_TRACKS};
use second::workloads::{fold, fold_corner, fold_list, fold_verdict, fold_written};
use second::workloads::{largest_draft, largest_file, pairs, pairs_with_corners, place_of, unforeseen};
use second::workloads::{Values, CORNERS, FILE, NAMES, WRITE};
use second::writer::{self, Handed, Written};

const PAIRS: usize = 2_000;
const ROUNDS: usize = 600;
/// How often the file is judged, or written, in a round.
const JUDGEMENTS: usize = 4;
/// Fewer, because a list takes a thousand times as long as a round of the others.
const ROUNDS_OF_LISTS: usize = 12;

const BY_LIBRARY: Taker = Taker { piece: library::piece, end: library::end };
const BY_SECOND: Taker = Taker { piece: arrival::piece, end: arrival::end };

fn main() -> ExitCode {
    println!(
        "{:<13} {:>7} {:>23} {:>23} {:>15}",
        "", "overlap", "library ns/pair", "second ns/pair", "library/second"
    );
    println!(
        "{:<13} {:>7} {:>23} {:>23} {:>15}",
        "pairs", "%", "least  median", "least  median", "least  median"
    );
    for name in NAMES {
        let prepared = pairs(name, PAIRS).expect("every named workload exists");
        if everything(&prepared, by_library) != everything(&prepared, by_second) {
            println!("{name}: the two programs answer differently");
            return ExitCode::FAILURE;
        }
        measure(name, &prepared);
    }
    for name in CORNERS {
        let prepared = pairs_with_corners(name, PAIRS).expect("every named workload exists");
        if every_corner(&prepared, library::corner_at) != every_corner(&prepared, corners::corner_at) {
            println!("{name}: the two programs answer differently");
            return ExitCode::FAILURE;
        }
        measure_corners(name, &prepared);
    }
    for name in [LEAKS, DIAGONALS] {
        let file = file_of_tracks(name, MOST_TRACKS).expect("every named workload exists");
        if list_of(&file, library::leaks) != list_of(&file, leaks::leaks) {
            println!("{name}: the two programs answer differently");
            return ExitCode::FAILURE;
        }
        measure_leaks(name, &file);
    }
    let file = largest_file();
    if everything_of(&file, library::check, library::recording)
        != everything_of(&file, footprint::judge, footprint::recording)
    {
        println!("{FILE}: the two programs answer differently");
        return ExitCode::FAILURE;
    }
    measure_file(&file);
    let draft = largest_draft();
    if file_of(draft.handed(), library::write) != file_of(draft.handed(), writer::write) {
        println!("{WRITE}: the two programs answer differently");
        return ExitCode::FAILURE;
    }
    measure_write(draft.handed(), file.len());
    for name in TEXTS {
        let night = night(name).expect("every named workload exists");
        if night.everything(library::wkt) != night.everything(wkt) {
            println!("{name}: the two programs answer differently");
            return ExitCode::FAILURE;
        }
        measure_texts(name, &night);
    }
    for name in ARRIVALS {
        let arrivals = arrivals(name).expect("every named workload exists");
        if arrivals.everything(BY_LIBRARY) != arrivals.everything(BY_SECOND) {
            println!("{name}: the two programs answer differently");
            return ExitCode::FAILURE;
        }
        measure_arrivals(name, &arrivals);
    }
    ExitCode::SUCCESS
}

/// All that an answer says, gathered into numbers.
type Gathered = ([u64; 3], [u8; 9]);

fn by_library(values: &[f64], room: &mut [f64]) -> Gathered {
    let a = library::intersect(values, room);
    let flags = [a.u_in_v, a.v_in_u, a.neighbour];
    ([u64::from(a.number), u64::from(a.n), a.area.to_bits()], flat(flags))
}

fn by_second(values: &[f64], room: &mut [f64]) -> Gathered {
    let a = triangles::intersect(values, room);
    let flags = [a.u_in_v, a.v_in_u, a.neighbour].map(|three| three.map(u8::from));
    ([u64::from(a.number), u64::from(a.n), a.area.to_bits()], flat(flags))
}

fn flat(flags: [[u8; 3]; 3]) -> [u8; 9] {
    flags.concat().try_into().expect("three times three are nine")
}

/// A checksum over answers, flags and rooms; not timed.
fn everything(pairs: &[Values], call: fn(&[f64], &mut [f64]) -> Gathered) -> u64 {
    let mut sum = 0u64;
    let mut add = |bits: u64| sum = (sum ^ bits).wrapping_mul(0x9e37_79b9_7f4a_7c15).rotate_left(29);
    for values in pairs {
        let mut room = [-1.0; 12];
        let (numbers, flags) = call(values, &mut room);
        numbers.into_iter().for_each(&mut add);
        flags.into_iter().for_each(|flag| add(u64::from(flag)));
        room.into_iter().for_each(|value| add(value.to_bits()));
    }
    sum
}

/// The same over corners, each with one behind its ring.
fn every_corner(pairs: &[Values], corner_at: fn(&[f64], usize) -> Corner) -> u64 {
    pairs
        .iter()
        .fold(0, |sum, values| (0..7).fold(sum, |sum, place| fold_corner(sum, corner_at(values, place))))
}

/// The verdict and all recordings; not timed.
fn everything_of(
    file: &[u8],
    check: fn(&[u8]) -> Verdict,
    recording: fn(&[u8], usize) -> Entry,
) -> (Verdict, Vec<Entry>) {
    (check(file), (0..=64).map(|k| recording(file, k)).collect())
}

/// The answer and the room; not timed.
fn list_of(file: &[u8], list: fn(&[u8], &mut [u8]) -> List) -> (List, Vec<u8>) {
    let mut room = vec![0; MOST_BYTES];
    (list(file, &mut room), room)
}

/// The same of a file that is written.
fn file_of(handed: Handed, write: fn(Handed, &mut [u8]) -> Written) -> (Written, Vec<u8>) {
    let mut room = vec![0; MOST_BYTES];
    (write(handed, &mut room), room)
}

fn measure(name: &str, pairs: &[Values]) {
    let times = in_turn(ROUNDS, || time_library(pairs), || time_second(pairs));
    let overlapping = pairs.iter().filter(|values| decide(*values).overlaps()).count();
    print_row(name, percent(overlapping, pairs.len()), 1, times);
}

/// In the place of pairs that overlap stand those that have such a corner.
fn measure_corners(name: &str, pairs: &[Values]) {
    let times = in_turn(
        ROUNDS,
        || time_corners(pairs, library::corner_at),
        || time_corners(pairs, corners::corner_at),
    );
    let answered =
        |(pair, values): &(usize, &Values)| corners::corner_at(*values, place_of(*pair)).number == 0;
    let answered = pairs.iter().enumerate().filter(answered).count();
    print_row(name, percent(answered, pairs.len()), 1, times);
}

fn measure_leaks(name: &str, file: &[u8]) {
    let times =
        in_turn(ROUNDS_OF_LISTS, || time_listing(file, library::leaks), || time_listing(file, leaks::leaks));
    let list = leaks::whole_list(file).expect("the file is a good one");
    let overlapping: u32 = list.leaks.iter().map(|leak| leak.pairs).sum();
    print_row(name, percent(overlapping as usize, pairs_of_tracks(MOST_TRACKS)), 2, times);
}

fn measure_file(file: &[u8]) {
    let times =
        in_turn(ROUNDS, || time_judging(file, library::check), || time_judging(file, footprint::judge));
    println!(
        "{:<13} {:>7} {:>23} {:>23} {:>15}",
        "", "bytes", "library ns/byte", "second ns/byte", "library/second"
    );
    print_row(FILE, file.len().to_string(), 3, times);
}

fn measure_write(handed: Handed, length: usize) {
    let times = in_turn(
        ROUNDS,
        || time_writing(handed, length, library::write),
        || time_writing(handed, length, writer::write),
    );
    print_row(WRITE, length.to_string(), 3, times);
}

fn measure_texts(name: &str, night: &Night) {
    let bytes = night.bytes(wkt);
    let times = in_turn(ROUNDS, || night.time(bytes, library::wkt), || night.time(bytes, wkt));
    print_row(name, bytes.to_string(), 3, times);
}

fn measure_arrivals(name: &str, arrivals: &Arrivals) {
    let times = in_turn(ROUNDS, || arrivals.time(BY_LIBRARY), || arrivals.time(BY_SECOND));
    print_row(name, arrivals.bytes().to_string(), 3, times);
}

fn percent(part: usize, whole: usize) -> String {
    format!("{:.1}", 100.0 * part as f64 / whole as f64)
}

/// Least and median, of the library and of the second program.
type Times = ((f64, f64), (f64, f64));

fn print_row(name: &str, share: String, decimals: usize, (library, second): Times) {
    println!(
        "{name:<13} {share:>7} {:>13.*} {:>9.*} {:>13.*} {:>9.*} {:>7.3} {:>7.3}",
        decimals,
        library.0,
        decimals,
        library.1,
        decimals,
        second.0,
        decimals,
        second.1,
        library.0 / second.0,
        library.1 / second.1
    );
}

/// Whoever goes first finds the caches colder, so they take turns at it.
fn in_turn(rounds: usize, library: impl Fn() -> f64, second: impl Fn() -> f64) -> Times {
    let (mut of_library, mut of_second) = (Vec::new(), Vec::new());
    for round in 0..rounds {
        if round % 2 == 0 {
            of_library.push(library());
            of_second.push(second());
        } else {
            of_second.push(second());
            of_library.push(library());
        }
    }
    (least_and_median(of_library), least_and_median(of_second))
}

fn time_library(pairs: &[Values]) -> f64 {
    let mut room = [0.0; 12];
    let begin = Instant::now();
    let mut sum = 0;
    for values in pairs {
        let answer = library::intersect(unforeseen(values), &mut room);
        sum = fold(sum, answer.number, answer.n, answer.area);
    }
    unforeseen(sum);
    begin.elapsed().as_nanos() as f64 / pairs.len() as f64
}

fn time_second(pairs: &[Values]) -> f64 {
    let mut room = [0.0; 12];
    let begin = Instant::now();
    let mut sum = 0;
    for values in pairs {
        let answer = triangles::intersect(unforeseen(values), &mut room);
        sum = fold(sum, answer.number, answer.n, answer.area);
    }
    unforeseen(sum);
    begin.elapsed().as_nanos() as f64 / pairs.len() as f64
}

/// Compiled for each of the two, so that neither is called by pointer.
fn time_corners(pairs: &[Values], corner_at: impl Fn(&[f64], usize) -> Corner) -> f64 {
    let begin = Instant::now();
    let mut sum = 0;
    for (pair, values) in pairs.iter().enumerate() {
        sum = fold_corner(sum, corner_at(unforeseen(values), place_of(pair)));
    }
    unforeseen(sum);
    begin.elapsed().as_nanos() as f64 / pairs.len() as f64
}

/// Called by pointer on both sides, once for thousands of bytes.
fn time_judging(file: &[u8], check: fn(&[u8]) -> Verdict) -> f64 {
    let begin = Instant::now();
    let mut sum = 0;
    for _ in 0..JUDGEMENTS {
        sum = fold_verdict(sum, check(unforeseen(file)));
    }
    unforeseen(sum);
    begin.elapsed().as_nanos() as f64 / (JUDGEMENTS * file.len()) as f64
}

/// The room is made, and touched, before the clock runs.
fn time_writing(handed: Handed, length: usize, write: fn(Handed, &mut [u8]) -> Written) -> f64 {
    let mut room = vec![46; MOST_BYTES];
    let begin = Instant::now();
    let mut sum = 0;
    for _ in 0..JUDGEMENTS {
        sum = fold_written(sum, write(unforeseen(handed), &mut room));
    }
    unforeseen(sum);
    begin.elapsed().as_nanos() as f64 / (JUDGEMENTS * length) as f64
}

/// One list; its room is made before the clock runs.
fn time_listing(file: &[u8], list: fn(&[u8], &mut [u8]) -> List) -> f64 {
    let mut room = vec![0; MOST_BYTES];
    let begin = Instant::now();
    let sum = fold_list(0, list(unforeseen(file), &mut room));
    unforeseen(sum);
    begin.elapsed().as_nanos() as f64 / pairs_of_tracks(MOST_TRACKS) as f64
}

fn least_and_median(mut times: Vec<f64>) -> (f64, f64) {
    times.sort_by(f64::total_cmp);
    (times[0], times[times.len() / 2])
}
