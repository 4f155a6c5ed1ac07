//! A file made of recordings: their sets and ids, and where all of it lies.

use crate::files::draft::{Draft, Triangle};
use crate::files::good::distinct;
use crate::footprint::stored::{HELD_BACK, TEST, TRAINING};
use crate::footprint::FARTHEST;
use crate::random::Random;

/// The triangles of one recording.
pub type Part = Vec<Triangle>;

/// Sets by chance, and in the orders that a wrong program may take for granted.
pub fn sets(random: &mut Random, count: usize) -> Vec<u8> {
    match random.below(8) {
        0 => (0..count).map(|k| if 2 * k < count { TEST } else { TRAINING }).collect(),
        1 => (0..count).map(|k| if 2 * k < count { TRAINING } else { TEST }).collect(),
        2 => (0..count).map(|k| if k % 2 == 0 { TEST } else { TRAINING }).collect(),
        _ => (0..count).map(|_| random.pick(&[TRAINING, TRAINING, TEST, TEST, HELD_BACK])).collect(),
    }
}

/// A good file, if the parts are good triangles and not too many; the ids are left to chance.
pub fn file_of(parts: &[Part], sets: &[u8], random: &mut Random) -> Vec<u8> {
    let counts: Vec<u16> = parts.iter().map(|part| part.len() as u16).collect();
    Draft::of(&ids(random, parts.len()), &counts, sets, parts.concat()).bytes()
}

/// Numbers of every length, those at which the length changes, and neighbours up and down.
fn ids(random: &mut Random, count: usize) -> Vec<u32> {
    match random.below(4) {
        0 => distinct(random, count, |r| {
            let digits = 1 + r.below(10) as u32;
            of_digits(digits, r)
        }),
        1 => distinct(random, count, |r| {
            let power = 10u32.pow(r.below(10) as u32);
            let any = r.bits() as u32;
            r.pick(&[0, power - 1, power, u32::MAX, u32::MAX - 1, 1 << 31, (1 << 31) - 1, any])
        }),
        2 => {
            let base = random.bits() as u32;
            let up = random.once_in(2);
            (0..count as u32).map(|k| if up { base.wrapping_add(k) } else { base.wrapping_sub(k) }).collect()
        }
        _ => distinct(random, count, |r| r.below(400) as u32),
    }
}

/// Any number that is written with so many digits.
fn of_digits(digits: u32, random: &mut Random) -> u32 {
    let low = if digits == 1 { 0 } else { 10u64.pow(digits - 1) };
    let high = 10u64.pow(digits).min(1 << 32);
    (low + random.below((high - low) as usize) as u64) as u32
}

/// Everything larger by a factor, and somewhere else in the range. What touched, touches.
pub fn placed(parts: &mut [Part], random: &mut Random) {
    let most = FARTHEST / farthest_in(parts);
    let some = random.between(1, most);
    let factor = random.pick(&[1, 1, 7.min(most), some, most]);
    enlarged_and_moved(parts, factor, random);
}

/// Somewhere else in the range, and of the same size.
pub fn moved(parts: &mut [Part], random: &mut Random) {
    enlarged_and_moved(parts, 1, random);
}

fn farthest_in(parts: &[Part]) -> i32 {
    parts.iter().flatten().flatten().map(|value| value.abs()).max().unwrap_or(1)
}

fn enlarged_and_moved(parts: &mut [Part], factor: i32, random: &mut Random) {
    let room = FARTHEST - factor * farthest_in(parts);
    let by = [0; 2].map(|_| random.between(-room, room));
    for triangle in parts.iter_mut().flatten() {
        for (k, value) in triangle.iter_mut().enumerate() {
            *value = *value * factor + by[k % 2];
        }
    }
}

/// Axes exchanged or not, and each of them turned over or not.
pub fn seen_from_any_side(parts: &mut [Part], random: &mut Random) {
    let [exchange, turn_x, turn_y] = [0; 3].map(|_| random.once_in(2));
    for vertex in parts.iter_mut().flatten().flat_map(|triangle| triangle.chunks_exact_mut(2)) {
        if exchange {
            vertex.swap(0, 1);
        }
        if turn_x {
            vertex[0] = -vertex[0];
        }
        if turn_y {
            vertex[1] = -vertex[1];
        }
    }
}
