//! The ways to lend room for a text.

use super::asked::Asked;
use crate::drafts::calls::Fill;
use crate::footprint::MOST_BYTES;
use crate::random::Random;
use crate::wkt::MOST_TEXT;

#[derive(Clone, Copy, Debug)]
pub struct Call {
    pub room: usize,
    pub fill: Fill,
    /// Whether file and room are lent as NULL where they are empty.
    pub null: [bool; 2],
}

/// How far from the text's length the rooms go, one by one.
pub const NEAR: usize = 3;

/// Two calls of every room that is long enough, so that no byte of the text can be right by chance; one of
/// every other.
pub fn calls_of(rooms: &[usize], asked: &Asked, random: &mut Random) -> Vec<Call> {
    let mut calls = Vec::new();
    for &room in rooms {
        let call = Call { room, fill: Fill::any(random), null: [0; 2].map(|_| random.once_in(2)) };
        calls.push(call);
        if asked.answered() && room >= asked.length() {
            calls.push(Call { fill: call.fill.turned(), ..call });
        }
    }
    calls
}

/// Every room up to a little more than the text needs.
pub fn every_room(asked: &Asked) -> Vec<usize> {
    (0..=asked.length() + NEAR).collect()
}

/// As many bytes as the text has, and one too few; then, once in `many` each, all lengths near it, the shortest,
/// where a part of the text ends, and any that are shorter or longer. Where there is no text, rooms of all
/// kinds.
pub fn rooms_for(asked: &Asked, many: usize, random: &mut Random) -> Vec<usize> {
    let length = asked.length();
    let mut others = vec![0, 0, 1, 19, 20, 21, 30, 74, 75, 76, MOST_BYTES];
    if asked.answered() {
        others.extend(length - NEAR..=length + NEAR);
        others.extend(behind_first_polygon(&asked.text));
        others.extend([random.below(length), length + random.below(1_000)]);
    } else {
        others.extend(asked.ample_room().filter(|room| *room < MOST_BYTES));
        others.push(random.below(1_000));
    }
    others.retain(|_| random.once_in(many));
    let mut rooms = if asked.answered() { vec![length - 1, length] } else { vec![random.below(200)] };
    if length > MOST_BYTES {
        rooms.push(MOST_BYTES);
    }
    if random.once_in(60 * many) {
        rooms.push(random.pick(&[MOST_TEXT, MOST_TEXT + 1, 400_000]));
    }
    rooms.extend(others);
    rooms.sort_unstable();
    rooms.dedup();
    rooms
}

/// Where the first of several polygons ends.
pub fn behind_first_polygon(text: &[u8]) -> Option<usize> {
    text.windows(4).position(|bytes| bytes == b")), ").map(|place| place + 2)
}
