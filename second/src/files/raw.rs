//! Files spoiled as bytes: cut, extended, changed, of the wrong length, or mere noise.

use super::good;
use crate::footprint::stored::{ENTRY, TRAILER, TRIANGLE};
use crate::footprint::{FARTHEST, MOST_BYTES};
use crate::random::Random;

pub fn cut_short(random: &mut Random) -> Vec<u8> {
    let mut file = good::any(random).bytes();
    let length = if random.once_in(2) { random.below(file.len()) } else { file.len() - 1 - random.below(12) };
    if random.once_in(2) {
        file.truncate(length);
    } else {
        file.drain(..file.len() - length);
    }
    file
}

/// Bytes before it, behind it or within.
pub fn extended(random: &mut Random) -> Vec<u8> {
    let mut file = good::any(random).bytes();
    let (within, some) = (random.below(file.len()), 1 + random.below(100));
    let place = random.pick(&[0, file.len(), within]);
    let more = random.pick(&[1, 2, 4, 12, 24, some]);
    let noise: Vec<u8> = (0..more).map(|_| if random.once_in(2) { 0 } else { random.bits() as u8 }).collect();
    file.splice(place..place, noise);
    if random.once_in(3) {
        let length = file.len();
        file[length - 4..].copy_from_slice(&(length as u32).to_le_bytes());
    }
    file
}

pub fn one_byte_changed(random: &mut Random) -> Vec<u8> {
    let mut file = good::any(random).bytes();
    change_a_byte(&mut file, random);
    file
}

pub fn some_bytes_changed(random: &mut Random) -> Vec<u8> {
    let mut file = good::any(random).bytes();
    (0..2 + random.below(6)).for_each(|_| change_a_byte(&mut file, random));
    file
}

/// Two times in three where the table and the trailer are.
fn change_a_byte(file: &mut [u8], random: &mut Random) {
    let from = if random.once_in(3) { 0 } else { file.len().saturating_sub(60) };
    let place = from + random.below(file.len() - from);
    let any = random.bits() as u8;
    file[place] = random.pick(&[0, 1, 2, 3, 0x7f, 0x80, 0xff, file[place] ^ 1, any]);
}

/// Two entries, or two triangles, or two stretches of any kind change places.
pub fn exchanged(random: &mut Random) -> Vec<u8> {
    let mut file = good::any(random).bytes();
    let size = random.pick(&[2, 4, ENTRY, TRIANGLE]);
    let places = file.len() / size;
    let (one, other) = (random.below(places), random.below(places));
    // Counted from the end, so that entries are hit whatever stands before them.
    for k in 1..=size {
        let end = file.len();
        file.swap(end - size * one - k, end - size * other - k);
    }
    file
}

/// All fields with their bytes the other way round, or those of one kind.
pub fn big_endian(random: &mut Random) -> Vec<u8> {
    let mut file = good::few(random).bytes();
    let (all, trailer) = (random.once_in(2), file.len() - TRAILER);
    let from = if all { 0 } else { random.pick(&[trailer, trailer + 4, trailer + 8]) };
    file[from..].chunks_exact_mut(4).for_each(<[u8]>::reverse);
    file
}

/// Lengths around the limits, empty and far too long ones among them, with a trailer to match.
pub fn lengths(random: &mut Random) -> Vec<u8> {
    let some = 1 + random.below(4000);
    let length = match random.below(8) {
        0 => 0,
        1 => random.below(12),
        2 => 12 + random.below(60),
        3 | 4 => MOST_BYTES + 1,
        5 => MOST_BYTES - 4 + random.below(9),
        6 => MOST_BYTES + random.pick(&[2, 8, 12, 48, 84, some]),
        _ => random.pick(&[2 * MOST_BYTES, 2 * MOST_BYTES + 12, 10 * MOST_BYTES + 84, 3 * MOST_BYTES - 1]),
    };
    // Of 65,548 bytes the last twelve are a good file, and to 16 bits that is all there is.
    let shown = if random.once_in(2) { length % MOST_BYTES } else { length };
    let recordings = random.below(3);
    let table = shown.saturating_sub(TRAILER + ENTRY * recordings);
    with_trailer(vec![0; length], table as u32, recordings as u32, shown as u32)
}

/// The longest that is not too long. No good file is, so the last test it can fail is 15.
pub fn limit(random: &mut Random) -> Vec<u8> {
    let length = MOST_BYTES - random.pick(&[0, 0, 0, 1, 2, 3]);
    let recordings = random.pick(&[0, 1, 2, 64]);
    let mut draft = good::few(random);
    draft.table.truncate(recordings);
    let short = length - draft.length() as usize;
    draft.insert(&vec![0; short]);
    draft.trailer.recordings = draft.table.len() as u32;
    draft.trailer.table = (length - TRAILER - ENTRY * draft.table.len()) as u32;
    draft.trailer.length = length as u32;
    match random.below(6) {
        0 => super::damage::stored_length(&mut draft, random),
        1 => super::damage::table_place(&mut draft, random),
        2 => super::damage::id(&mut draft, random),
        3 => super::damage::last_byte(&mut draft, random),
        _ => (),
    }
    draft.bytes()
}

/// Noise with a trailer that says where the table is; at times only the table is noise.
pub fn noise(random: &mut Random) -> Vec<u8> {
    let recordings = random.pick(&[0, 1, 1, 2, 3, 64]);
    let triangles = random.below(12);
    let length = TRIANGLE * triangles + ENTRY * recordings + TRAILER;
    let mut file: Vec<u8> = (0..length).map(|_| random.bits() as u8).collect();
    if random.once_in(2) {
        let values = file.chunks_exact_mut(4).take(6 * triangles);
        values.for_each(|value| {
            value.copy_from_slice(&random.between(-FARTHEST, FARTHEST).to_le_bytes());
        });
    }
    if random.once_in(5) {
        return file;
    }
    with_trailer(file, (TRIANGLE * triangles) as u32, recordings as u32, length as u32)
}

fn with_trailer(mut file: Vec<u8>, table: u32, recordings: u32, length: u32) -> Vec<u8> {
    let bytes = [table, recordings, length].map(u32::to_le_bytes).concat();
    let room = file.len().min(TRAILER);
    let start = file.len() - room;
    file[start..].copy_from_slice(&bytes[TRAILER - room..]);
    file
}
