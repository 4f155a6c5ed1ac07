//! Pairs to measure time with, in whole centimetres as a footprint file has them, and such files to read, to
//! write, to list the leaks of, to show as text and to take in pieces.

pub mod arrivals;
pub mod texts;
pub mod tracks;

use crate::case::{point, Pair};
use crate::classes::ordinary;
use crate::corners::Corner;
use crate::drafts;
use crate::files::draft::Draft;
use crate::files::good;
use crate::footprint::{Verdict, MOST_RECORDINGS};
use crate::leaks::List;
use crate::random::Random;
use crate::triangles::numbers::Point;
use crate::writer::Written;
use tracks::{beside, strip, within, Triangle};

pub type Values = [f64; 12];

const SEED: u64 = 77;
pub const NAMES: [&str; 3] = ["random", "strips", "far"];
/// Pairs of which one corner each is asked for.
pub const CORNERS: [&str; 2] = ["corner-random", "corner-strips"];
/// A file to judge, and to write, with training in the place of what is held back in it.
pub const FILE: &str = "file";
pub const WRITE: &str = "write";

/// None where there is no workload of that name.
pub fn pairs(name: &str, count: usize) -> Option<Vec<Values>> {
    let mut random = Random::new(SEED);
    let mut all = match name {
        "random" => (0..count).map(|_| ordinary::whole_centimetres(&mut random)).collect(),
        "far" => (0..count).map(|_| far(&mut random)).collect(),
        "strips" => strips(&mut random, count),
        _ => return None,
    };
    all.truncate(count);
    Some(all.iter().map(|pair| pair.values().try_into().expect("a pair has twelve values")).collect())
}

/// The pairs of the workload that is named behind the dash.
pub fn pairs_with_corners(name: &str, count: usize) -> Option<Vec<Values>> {
    name.strip_prefix("corner-").and_then(|name| pairs(name, count))
}

/// Which corner is asked for. Most rings have four or fewer, and a corner that is not there costs what
/// another does.
#[inline]
pub fn place_of(pair: usize) -> usize {
    pair % 4
}

/// The same value, but one the compiler cannot foresee and has to have computed. What is called
/// with it stands in another crate or in the library and hides its effects by itself.
/// (`std::hint::black_box` is newer than the oldest compiler in use.)
#[inline]
pub fn unforeseen<T: Copy>(value: T) -> T {
    // A reference is valid to read from, and a copy may be read as often as one likes.
    unsafe { std::ptr::read_volatile(&value) }
}

/// One step of a checksum over answers, the same for every program that is timed.
#[inline]
pub fn fold(sum: u64, number: u32, n: u32, area: f64) -> u64 {
    sum.rotate_left(7) ^ area.to_bits().wrapping_add(u64::from(number) << 8 | u64::from(n))
}

/// Hardly more than for an answer, so that the two can be compared.
#[inline]
pub fn fold_corner(sum: u64, corner: Corner) -> u64 {
    let Corner { number, kind, which, edge, line, t, x, y } = corner;
    let whole = number << 16 | kind << 12 | which << 8 | edge << 4 | line;
    let position = x.to_bits().rotate_left(21) ^ y.to_bits();
    sum.rotate_left(7) ^ (t.to_bits() ^ position).wrapping_add(u64::from(whole))
}

#[inline]
pub fn fold_verdict(sum: u64, verdict: Verdict) -> u64 {
    // One more for every call: a good file's number and place are zeros.
    sum.rotate_left(7) ^ (u64::from(verdict.number) << 32 | u64::from(verdict.place)).wrapping_add(1)
}

#[inline]
pub fn fold_list(sum: u64, list: List) -> u64 {
    let List { number, place, length, leaks, touching, tested, formerly_held_back } = list;
    let numbers = [number, place, length as u32, leaks, touching, tested, formerly_held_back];
    numbers.iter().fold(sum, |sum, number| sum.rotate_left(7) ^ u64::from(*number).wrapping_add(1))
}

#[inline]
pub fn fold_written(sum: u64, written: Written) -> u64 {
    let numbers = [written.number, written.place, written.length as u32];
    numbers.iter().fold(sum, |sum, number| sum.rotate_left(7) ^ u64::from(*number).wrapping_add(1))
}

/// A good file of the most recordings and then of the most triangles.
pub fn largest_file() -> Vec<u8> {
    largest().bytes()
}

/// The lists that it is written from, as far as a writer takes them: nothing is held back.
pub fn largest_draft() -> drafts::draft::Draft {
    largest().into()
}

fn largest() -> Draft {
    let recordings = MOST_RECORDINGS as usize;
    let mut random = Random::new(SEED);
    good::filled(&mut random, recordings, good::most_triangles(recordings), good::anywhere)
}

/// Two small triangles on opposite sides of the tank.
fn far(random: &mut Random) -> Pair {
    let (side_x, side_y) = (random.sign() * 500_000.0, random.sign() * 500_000.0);
    let mut vertex = |x: f64, y: f64| {
        point(x + f64::from(random.between(-60_000, 60_000)), y + f64::from(random.between(-60_000, 60_000)))
    };
    Pair { u: [0; 3].map(|_| vertex(side_x, side_y)), v: [0; 3].map(|_| vertex(-side_x, -side_y)) }
}

/// Near pairs of two boat tracks, from as many tracks as it takes.
fn strips(random: &mut Random, count: usize) -> Vec<Pair> {
    let mut pairs = Vec::new();
    while pairs.len() < count {
        let (start, course) = (within(random, 300_000.0), within(random, 1.0));
        let first = strip(random, start, course, 12);
        let across = point(-course.y, course.x);
        let second = if random.once_in(2) {
            strip(random, beside(start, course, 6_000.0, across, -6_000.0), across, 12)
        } else {
            let aside = random.real(1_000.0, 5_000.0);
            strip(random, beside(start, course, 0.0, across, aside), course, 12)
        };
        for &u in &first {
            pairs.extend(second.iter().filter(|v| near(&u, v)).map(|&v| Pair { u, v }));
        }
    }
    pairs
}

/// Whether the boxes around the two come within a boat's step of each other.
fn near(u: &Triangle, v: &Triangle) -> bool {
    const STEP: f64 = 1_000.0;
    let close = |of: fn(&Point) -> f64| {
        let low = |t: &Triangle| t.iter().map(of).fold(f64::INFINITY, f64::min);
        let high = |t: &Triangle| t.iter().map(of).fold(f64::NEG_INFINITY, f64::max);
        low(u) <= high(v) + STEP && low(v) <= high(u) + STEP
    };
    close(|p| p.x) && close(|p| p.y)
}

#[cfg(test)]
mod tests {
    use super::*;
    use crate::files::sets::as_training;
    use crate::footprint::{judge, MOST_BYTES};
    use crate::writer::write;

    #[test]
    fn the_largest_file_is_good() {
        let file = largest_file();
        assert_eq!((file.len(), judge(&file)), (65_532, Verdict::default()));
    }

    #[test]
    fn the_largest_file_is_written() {
        let mut room = [46; MOST_BYTES];
        let written = write(largest_draft().handed(), &mut room);
        assert_eq!(written, Written { number: 0, place: 0, length: 65_532 });
        let file = as_training(&largest_file());
        assert_eq!((&room[..65_532], &room[65_532..]), (&file[..], &[46; 4][..]));
    }
}
