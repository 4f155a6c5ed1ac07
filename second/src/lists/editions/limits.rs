//! Overlaps of a hundredth of a test recording's own area, or of a little more or less, without rounding or with
//! little of it.

use super::{of_cross, of_one_test, turned};
use crate::files::draft::Triangle;
use crate::files::shapes::{cross, not_flat};
use crate::lists::recordings::{moved, placed, seen_from_any_side, Part};
use crate::random::Random;

/// A test triangle around the training's, and others where nothing else is, so that it comes to a hundredth.
/// All areas are exact.
pub fn near_a_hundredth(random: &mut Random) -> Vec<u8> {
    const AROUND: Triangle = [0, 0, 60, 0, 0, 60];
    loop {
        let training: Part =
            (0..1 + random.below(4)).map(|_| not_flat(random, |r| r.between(1, 29))).collect();
        let around = 1 + random.below(2);
        let within: i64 = training.iter().map(|triangle| cross(*triangle).abs() as i64).sum();
        let off = random.pick(&[0, 0, 0, 1, -1, 2, -2, 50, -50]);
        let rest = around as i64 * (100 * within - 3_600) + off;
        if rest < 4 {
            continue;
        }
        let mut test = vec![turned(AROUND, random); around];
        test.extend(elsewhere(rest, random));
        random.shuffle(&mut test);
        let mut parts = [test, training];
        placed(&mut parts, random);
        let [test, training] = parts;
        return of_one_test(test, training, random);
    }
}

/// One triangle to three with so large crosses in all, in a corner of their own.
fn elsewhere(rest: i64, random: &mut Random) -> Part {
    let count = 1 + random.below(3) as i64;
    let share = rest / count;
    let crosses = (0..count).map(|k| if k == 0 { rest - share * (count - 1) } else { share });
    crosses.filter(|cross| *cross > 0).map(|cross| turned(of_cross(cross, [100, 100]), random)).collect()
}

/// Strips beside one another, cut across at places of their own, of which the one reaches into the other by a
/// hundredth of its width, or more, or not at all.
pub fn bands(random: &mut Random) -> Vec<u8> {
    let times = random.pick(&[1, 1, 2, 3, 7]);
    let length = random.between(20, 400);
    let into = random.pick(&[1, 1, 1, 1, 2, 0, -1]) * times;
    let off = if random.once_in(3) { random.pick(&[1, -1]) } else { 0 };
    let test = strip([0, 100 * times], length, random);
    let training = strip([-40 * times, into + off], length, random);
    let mut parts = [test, training];
    seen_from_any_side(&mut parts, random);
    if random.once_in(2) {
        moved(&mut parts, random);
    }
    let [test, training] = parts;
    of_one_test(test, training, random)
}

/// From the one y to the other.
fn strip([low, high]: [i32; 2], length: i32, random: &mut Random) -> Part {
    let count = 1 + random.below(5);
    let mut cut = || {
        let mut cuts: Vec<i32> = (1..count).map(|_| random.between(1, length - 1)).collect();
        cuts.extend([0, length]);
        cuts.sort_unstable();
        cuts
    };
    let (below, above) = (cut(), cut());
    let mut part = Vec::new();
    for k in 1..=count {
        let [a, b] = [below[k - 1], below[k]];
        let [c, d] = [above[k - 1], above[k]];
        part.push([a, low, b, low, c, high]);
        part.push([b, low, d, high, c, high]);
    }
    part.retain(|triangle| cross(*triangle) != 0);
    part.iter_mut().for_each(|triangle| *triangle = turned(*triangle, random));
    random.shuffle(&mut part);
    part
}
