//! Ways to cut a file into pieces, and what else is called among them.

use super::run::{end_with, piece, Buffer, Step};
use crate::footprint::MOST_BYTES;
use crate::random::Random;

/// How many bytes there are before each piece; the first begins at 0.
pub fn at(file: &[u8], mut cuts: Vec<usize>) -> Vec<Step> {
    cuts.sort_unstable();
    cuts.push(file.len());
    let mut from = 0;
    let mut steps = Vec::new();
    for to in cuts {
        steps.push(piece(&file[from..to]));
        from = to;
    }
    steps
}

pub fn even(file: &[u8], length: usize) -> Vec<Step> {
    file.chunks(length).map(piece).collect()
}

/// In two at any place, at times near an end of the file or where something in it begins.
pub fn in_two(file: &[u8], random: &mut Random) -> Vec<Step> {
    at(file, vec![some_place(file.len(), random)])
}

/// Mostly a few, at any places.
pub fn in_some(file: &[u8], random: &mut Random) -> Vec<Step> {
    let most = random.pick(&[2, 4, 9, 30]);
    let cuts = (0..2 + random.below(most)).map(|_| some_place(file.len(), random)).collect();
    at(file, cuts)
}

/// In any way, and not often byte by byte if it is long.
pub fn in_any_way(file: &[u8], random: &mut Random) -> Vec<Step> {
    match random.below(6) {
        0 => vec![piece(file)],
        1 | 2 => in_two(file, random),
        3 if file.len() < 200 => even(file, 1),
        3 => even(file, file.len() / 50 + random.below(file.len())),
        _ => in_some(file, random),
    }
}

fn some_place(length: usize, random: &mut Random) -> usize {
    match random.below(6) {
        0 => random.below(13).min(length),
        1 => length - random.below(14).min(length),
        2 => random.below(length + 1) / 12 * 12,
        3 => random.below(length + 1) / 24 * 24,
        _ => random.below(length + 1),
    }
}

/// Empty pieces at the beginning, at the end and between others, by chance.
pub fn with_empty_pieces(steps: &mut Vec<Step>, random: &mut Random) {
    for _ in 0..1 + random.below(4) {
        let place = random.below(steps.len() + 1);
        let place = random.pick(&[0, steps.len(), place, place]);
        steps.insert(place, empty_piece(random));
    }
}

pub fn empty_piece(random: &mut Random) -> Step {
    Step::Piece { bytes: Vec::new(), null: random.once_in(2), buffer: Buffer::Right }
}

/// Calls that are refused for their buffers, among others by chance: those that come next, and any.
pub fn with_wrong_buffers(steps: &mut Vec<Step>, random: &mut Random) {
    for _ in 0..1 + random.below(4) {
        let place = random.below(steps.len() + 1);
        let place = random.pick(&[0, steps.len(), place, place]);
        let buffer = wrong_buffer(random);
        let call = match (random.below(4), steps.get(place)) {
            (0 | 1, Some(Step::Piece { bytes, null, .. })) => {
                Step::Piece { bytes: bytes.clone(), null: *null, buffer }
            }
            (0, _) => some_piece_into(buffer, random),
            (1, _) => Step::Piece { bytes: Vec::new(), null: random.once_in(2), buffer },
            _ => end_with(buffer),
        };
        steps.insert(place, call);
    }
}

pub fn wrong_buffer(random: &mut Random) -> Buffer {
    let shorter = random.below(MOST_BYTES);
    let front = random.pick(&[1, 12, 84, 65_532, MOST_BYTES - 1, MOST_BYTES - 1, shorter]);
    let few = 1 + random.below(11);
    let longer = MOST_BYTES + 1 + random.below(MOST_BYTES - 1);
    match random.below(12) {
        0 => Buffer::Null,
        1 => Buffer::Other(0),
        2 => Buffer::Front(few),
        3 => Buffer::Front(front),
        4 => Buffer::Other(few),
        5 => Buffer::Other(front),
        6 => Buffer::Other(MOST_BYTES - 1),
        7 | 8 => Buffer::Other(MOST_BYTES + 1),
        9 => Buffer::Other(longer),
        10 => Buffer::Other(2 * MOST_BYTES),
        _ => Buffer::Other(random.pick(&[
            3 * MOST_BYTES,
            5 * MOST_BYTES,
            2 * MOST_BYTES + 1,
            262_144 + 65_536,
        ])),
    }
}

/// Some bytes or many.
pub fn some_piece_into(buffer: Buffer, random: &mut Random) -> Step {
    let some = 1 + random.below(300);
    let length = random.pick(&[1, 12, 84, some, some, some]);
    Step::Piece { bytes: noise(length, random), null: false, buffer }
}

pub fn noise(length: usize, random: &mut Random) -> Vec<u8> {
    let mut bytes = Vec::with_capacity(length + 8);
    while bytes.len() < length {
        bytes.extend(random.bits().to_le_bytes());
    }
    bytes.truncate(length);
    bytes
}

/// What nobody should say any more: pieces, empty ones and ends, some with a wrong buffer.
pub fn with_calls_after(steps: &mut Vec<Step>, random: &mut Random) {
    for _ in 0..1 + random.below(5) {
        let buffer = if random.once_in(4) { wrong_buffer(random) } else { Buffer::Right };
        steps.push(match random.below(4) {
            0 => some_piece_into(buffer, random),
            1 => Step::Piece { bytes: Vec::new(), null: random.once_in(2), buffer },
            2 if random.once_in(20) => {
                Step::Piece { bytes: noise(MOST_BYTES + random.below(9), random), null: false, buffer }
            }
            _ => end_with(buffer),
        });
    }
}
