//! Rooms to lend for a list.

use crate::footprint::MOST_BYTES;
use crate::random::Random;

#[derive(Clone, Copy, Debug)]
pub struct Room {
    pub length: usize,
    /// NULL is lent, which an empty room may be.
    pub null: bool,
}

impl Room {
    pub fn of(length: usize) -> Room {
        Room { length, null: false }
    }

    pub const NULL: Room = Room { length: 0, null: true };
}

/// What a room holds before the call: nothing that a list has in it, no two neighbours alike.
pub fn unwritten(length: usize) -> Vec<u8> {
    (0..length).map(|k| 128 + (k % 127) as u8).collect()
}

/// Where the last line of a list begins; 0 where there is no list.
pub fn before_last_line(list: &str) -> usize {
    list.trim_end().rfind('\n').map_or(0, |end| end + 1)
}

/// The same of its two closing lines.
pub fn before_closing_lines(list: &str) -> usize {
    before_last_line(&list[..before_last_line(list)])
}

/// One byte too few for the list, and as many as it has; then once in `many` each of these: two too
/// few, all but its last line, all but its closing lines, one and two more, NULL, as many as any list can
/// need, any, any that ends within the last line, and half of those from none to forty-two. Of a refused
/// file, which is soon done with, there is no list, and none of these is halved.
pub fn rooms_for(list: &str, many: usize, random: &mut Random) -> Vec<Room> {
    let length = list.len();
    let closing = [before_closing_lines(list), before_last_line(list)];
    let mut others = vec![length.saturating_sub(2), length + 1, length + 2, MOST_BYTES];
    others.extend(closing);
    others.extend((0..=42).filter(|_| list.is_empty() || random.once_in(2)));
    others.push(random.below(length + 1));
    others.push(closing[1] + random.below(length - closing[1]));
    others.push(length + random.below(2_000));
    others.retain(|_| random.once_in(many));
    let mut lengths = [vec![length.saturating_sub(1), length], others].concat();
    lengths.sort_unstable();
    lengths.dedup();
    let mut rooms: Vec<Room> = lengths.into_iter().map(Room::of).collect();
    if random.once_in(many) {
        rooms.push(Room::NULL);
    }
    rooms
}
