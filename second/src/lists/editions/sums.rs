//! Overlaps whose sum, or the own area that it is compared with, is rounded, so that the order of adding and the
//! way of comparing decide.

use super::{of_cross, of_one_test, turned};
use crate::decision::decide;
use crate::files::draft::Triangle;
use crate::files::shapes::{cross, not_flat};
use crate::footprint::FARTHEST;
use crate::lists::coverage::editions::{Weighed, OTHER_WAYS};
use crate::lists::recordings::Part;
use crate::random::Random;
use crate::triangles::VALUES;

/// A training recording without gaps over all of the tests' triangles but those that make the rest: what they
/// share is truly a hundredth, and rounding decides. Some tries are made for one that another way to weigh
/// decides otherwise, or whose areas are right and their sum is not.
pub fn tiled(random: &mut Random) -> Vec<u8> {
    const TRIES: usize = 12;
    let (_, otherwise) = random.pick(&OTHER_WAYS);
    if random.once_in(4) {
        let lost_on_the_way = |w: &Weighed| w.truly_at_the_limit() && !w.at_the_limit();
        return with_tries(16 * TRIES, lost_on_the_way, tiles, random);
    }
    with_tries(TRIES, |w| otherwise(w) != w.leak(), tiles, random)
}

/// The same for ways that differ in the order of adding alone.
pub fn in_order(random: &mut Random) -> Vec<u8> {
    const TRIES: usize = 60;
    let otherwise = random.pick(&ways_of(&IN_ORDER));
    with_tries(TRIES, |w| otherwise(w) != w.leak(), tiles, random)
}

/// The same of areas such as a tenth, which is none of the numbers that there are, nor is a hundredth of the own
/// area: the way of comparing decides.
pub fn fractions(random: &mut Random) -> Vec<u8> {
    const TRIES: usize = 40;
    let otherwise = random.pick(&ways_of(&COMPARING));
    with_tries(TRIES, |w| otherwise(w) != w.leak(), of_fractions, random)
}

const IN_ORDER: [&str; 7] = [
    "no sum rounded",
    "areas from the last to the first",
    "areas from the smallest on",
    "areas from the largest on",
    "training triangles in the outer loop",
    "sums of test triangles added",
    "sums of training triangles added",
];

const COMPARING: [&str; 7] = [
    "the limit itself as well",
    "the own area through 100",
    "the own area times 0.01",
    "the sum through the own area",
    "every area times 100",
    "100 times the sum, not rounded",
    "no sum rounded",
];

fn ways_of(names: &[&str]) -> Vec<fn(&Weighed) -> bool> {
    OTHER_WAYS.iter().filter(|way| names.contains(&way.0)).map(|way| way.1).collect()
}

type Made = [Part; 2];

/// The first of so many that is wanted, or else the last of them.
fn with_tries(
    tries: usize,
    wanted: impl Fn(&Weighed) -> bool,
    make: fn(&mut Random) -> Made,
    random: &mut Random,
) -> Vec<u8> {
    let mut made = make(random);
    for _ in 1..tries {
        let [test, training] = [&made[0], &made[1]].map(|part| bytes_of(part));
        if wanted(&Weighed::of(&test, &training)) {
            break;
        }
        made = make(random);
    }
    let [test, training] = made;
    of_one_test(test, training, random)
}

fn values_of(u: Triangle, v: Triangle) -> [f64; VALUES] {
    let mut values = [0.0; VALUES];
    values[..6].copy_from_slice(&u.map(f64::from));
    values[6..].copy_from_slice(&v.map(f64::from));
    values
}

fn bytes_of(part: &Part) -> Vec<u8> {
    part.iter().flatten().flat_map(|value| value.to_le_bytes()).collect()
}

/// The tests' triangles lie in the lower left half of a square of so many centimetres, at the origin.
fn tiles(random: &mut Random) -> Made {
    let side = random.pick(&[6, 12, 30, 100, 1_000, 20_000]);
    let mut training = vec![[-1, -1, 4 * side, -1, -1, 4 * side]];
    for _ in 0..1 + random.below(6) {
        split(&mut training, random);
    }
    random.shuffle(&mut training);
    let mut test: Part = (0..1 + random.below(4)).map(|_| not_flat(random, |r| r.between(0, side))).collect();
    let size: i64 = test.iter().map(|triangle| cross(*triangle).abs() as i64).sum();
    let off = random.pick(&[0, 0, 0, 0, 1, -1]);
    test.extend(rest(99 * size + off, 4 * side + 10));
    test.iter_mut().for_each(|triangle| *triangle = turned(*triangle, random));
    random.shuffle(&mut test);
    [test, training]
}

/// So large crosses in all, beyond this x and y: a triangle, or several of the largest that fit.
fn rest(mut cross: i64, from: i32) -> Part {
    let side = i64::from(FARTHEST - from - 3);
    let mut part = Vec::new();
    while cross > 0 {
        let one = cross.min(side * side);
        part.push(of_cross(one, [from, from]));
        cross -= one;
    }
    part
}

/// One of them in three, at a point within it, if there is any and chance finds it.
fn split(tiles: &mut Part, random: &mut Random) {
    for _ in 0..20 {
        let k = random.below(tiles.len());
        let [x0, y0, x1, y1, x2, y2] = tiles[k];
        let x = random.between(x0.min(x1).min(x2), x0.max(x1).max(x2));
        let y = random.between(y0.min(y1).min(y2), y0.max(y1).max(y2));
        let parts = [[x0, y0, x1, y1, x, y], [x1, y1, x2, y2, x, y], [x2, y2, x0, y0, x, y]];
        let crosses = parts.map(cross);
        if crosses.iter().all(|cross| *cross > 0) || crosses.iter().all(|cross| *cross < 0) {
            tiles[k] = parts[0];
            tiles.extend(&parts[1..]);
            return;
        }
    }
}

/// Some pairs beside one another, each with an area that is a whole number of two hundredths; but that is rounded.
fn of_fractions(random: &mut Random) -> Made {
    const WIDE: i32 = 12;
    let (mut test, mut training) = (Vec::new(), Vec::new());
    let (mut sum, mut size) = (0.0, 0);
    let count = 1 + random.below(4) as i32;
    while (test.len() as i32) < count {
        let x = (WIDE + 1) * test.len() as i32;
        let mut some = || not_flat(random, |r| r.between(0, WIDE));
        let [u, v] = [some(), some()].map(|[a, b, c, d, e, f]| [a + x, b, c + x, d, e + x, f]);
        let area = decide(&values_of(u, v)).area;
        let times = (200.0 * area).round();
        let cross = cross(u).abs() as i64;
        let is_whole = (200.0 * area - times).abs() < 1e-9 && (64.0 * area).fract() != 0.0;
        if is_whole && times as i64 > cross {
            sum += area;
            size += cross;
            test.push(turned(u, random));
            training.push(v);
        }
    }
    test.extend(rest((200.0 * sum).round() as i64 - size, (WIDE + 1) * count));
    [test, training]
}

/// Slats across slats: each two share a little.
pub fn many(random: &mut Random) -> Vec<u8> {
    let counts = [0; 2].map(|_| random.pick(&[4, 9, 12, 14]));
    let length = 40 * counts[0].max(counts[1]) as i32;
    let slats = |count: usize, random: &mut Random| -> Part {
        let slat =
            |k: i32| [40 * k, 0, 40 * k + random.between(3, 30), 0, 40 * k + random.between(0, 39), length];
        (0..count as i32).map(slat).collect()
    };
    let mut test = slats(counts[0], random);
    let training: Part =
        slats(counts[1], random).into_iter().map(|[a, b, c, d, e, f]| [b, a, d, c, f, e]).collect();
    let weighed = Weighed::of(&bytes_of(&test), &bytes_of(&training));
    let size: i64 = test.iter().map(|triangle| cross(*triangle).abs() as i64).sum();
    let wanted = (200.0 * weighed.sum()) as i64 + random.pick(&[0, 1, -1, 1_000, -1_000]);
    test.extend(rest(wanted - size, length + 10));
    test.iter_mut().for_each(|triangle| *triangle = turned(*triangle, random));
    of_one_test(test, training, random)
}

/// How many of the largest triangles come to 2^53 with their crosses.
const HEAD: i64 = 2_252;
const LARGEST: i64 = 4 * FARTHEST as i64 * FARTHEST as i64;

/// A training triangle that lies in all of a test's, of which there are so many and so large ones that their
/// crosses are rounded when they are added. The first are added without loss, and each of the others loses one,
/// or gains one: they are odd, and leave the same rest when they are divided by four. The limit lies between
/// what this comes to and what it truly is, or a little beside.
pub fn past_53_bits(random: &mut Random) -> Vec<u8> {
    let tail = 20 + random.below(400) as i64;
    let count = HEAD + tail;
    let less = random.pick(&[1, 2, 3]);
    let [x, y] = [1_000 - FARTHEST; 2];
    // Its cross is LARGEST / 100 − `less`.
    let training = [x, y, x + 200_000, y + 1, x + less, y + 200_000];
    let limit = 100 * count * cross(training).abs() as i64;
    let of_tail = random.pick(&[1, 3]);
    let shift = if of_tail == 3 { tail } else { -tail };
    let some = random.below(tail as usize) as i64;
    let beyond =
        random.pick(&[0, 1, shift, some * shift.signum(), some * shift.signum(), -some * shift.signum()]);
    // What the crosses of the first ones are short of the largest, in all.
    let short = count * LARGEST - tail * of_tail - limit - beyond;
    let mut test: Part = (0..HEAD).map(|k| large(short / HEAD + i64::from(k < short % HEAD))).collect();
    test.extend((0..tail).map(|_| large(of_tail)));
    if random.once_in(4) {
        random.shuffle(&mut test);
    }
    if random.once_in(2) {
        test.iter_mut().for_each(|triangle| *triangle = turned(*triangle, random));
    }
    of_one_test(test, vec![turned(training, random)], random)
}

/// Short of the largest cross by so much.
fn large(short: i64) -> Triangle {
    let end = FARTHEST;
    [-end, -end, end, 1 - end, short as i32 - end, end]
}

#[cfg(test)]
mod tests {
    use super::*;

    #[test]
    fn as_large_as_said() {
        assert_eq!((cross(large(0)), cross(large(7))), (i128::from(LARGEST), i128::from(LARGEST - 7)));
        assert!((HEAD - 1) * LARGEST < 1 << 53 && HEAD * LARGEST > 1 << 53);
    }

    #[test]
    fn tiles_have_no_gaps() {
        let mut random = Random::new(3);
        for _ in 0..200 {
            let side = random.between(6, 1_000);
            let mut tiles = vec![[-1, -1, 4 * side, -1, -1, 4 * side]];
            let whole = cross(tiles[0]);
            (0..5).for_each(|_| split(&mut tiles, &mut random));
            assert_eq!(tiles.iter().map(|tile| cross(*tile).abs()).sum::<i128>(), whole);
        }
    }
}
