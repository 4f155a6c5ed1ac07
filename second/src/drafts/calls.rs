//! The ways to lend a draft to a writer: rooms of all lengths and contents, and NULL for what is empty.

use crate::footprint::MOST_BYTES;
use crate::random::Random;

/// What a room holds before the call: `start`, then always `step` more, as far as a byte goes.
#[derive(Clone, Copy, Debug)]
pub struct Fill {
    start: u8,
    step: u8,
}

impl Fill {
    pub fn any(random: &mut Random) -> Fill {
        let any = [random.bits() as u8, random.bits() as u8];
        let [start, step] = random.pick(&[[0, 0], [46, 0], [165, 0], [1, 1], any, any]);
        Fill { start, step }
    }

    /// Another byte at every place, so that a byte which is not written cannot look right in both.
    pub fn turned(self) -> Fill {
        Fill { start: !self.start, step: self.step.wrapping_neg() }
    }

    pub fn bytes(self, length: usize) -> Vec<u8> {
        let byte = |k: u8| self.start.wrapping_add(self.step.wrapping_mul(k));
        let period: Vec<u8> = (0..=u8::MAX).map(byte).collect();
        let mut bytes = period.repeat(length / period.len() + 1);
        bytes.truncate(length);
        bytes
    }
}

#[derive(Clone, Copy, Debug)]
pub struct Call {
    pub room: usize,
    pub fill: Fill,
    /// Whether ids, counts, sets, lasts, numbers and room are lent as NULL where they are empty.
    pub null: [bool; 6],
}

impl Call {
    fn of(room: usize, random: &mut Random) -> Call {
        let all = random.once_in(4);
        Call { room, fill: Fill::any(random), null: [0; 6].map(|_| all || random.once_in(2)) }
    }
}

/// How far from the file's length the rooms go, one by one.
pub const NEAR: usize = 13;

/// Two calls of every room in which a file of `length` bytes is to be written, one of every other.
pub fn calls_of(rooms: &[usize], length: Option<usize>, random: &mut Random) -> Vec<Call> {
    let mut calls = Vec::new();
    for &room in rooms {
        let call = Call::of(room, random);
        calls.push(call);
        if length.map_or(false, |length| room >= length) {
            calls.push(Call { fill: call.fill.turned(), ..call });
        }
    }
    calls
}

/// As many bytes as the file would have, and one too few; then, once in `many` each, all lengths near it, the
/// shortest, and any that are shorter or longer; and more rarely those around and beyond the longest file.
pub fn rooms_for(length: usize, many: usize, random: &mut Random) -> Vec<usize> {
    let mut others: Vec<usize> = (length.saturating_sub(NEAR)..=length + NEAR).collect();
    others.extend([0, 0, 0, 1, 11, 12, 13]);
    others.push(random.below(length));
    others.push(length + random.below(1_000));
    others.retain(|_| random.once_in(many));
    let mut large = vec![MOST_BYTES - 1, MOST_BYTES, MOST_BYTES + 1, 2 * MOST_BYTES];
    large.retain(|_| random.once_in(8 * many));
    let mut rooms = [vec![length - 1, length], others, large].concat();
    rooms.sort_unstable();
    rooms.dedup();
    rooms
}

#[cfg(test)]
mod tests {
    use super::*;

    #[test]
    fn contents_and_other_contents() {
        assert_eq!(Fill { start: 250, step: 3 }.bytes(4), [250, 253, 0, 3]);
        let mut random = Random::new(7);
        for length in [0, 1, 255, 256, 257, 1_000] {
            let fill = Fill::any(&mut random);
            let (one, other) = (fill.bytes(length), fill.turned().bytes(length));
            assert_eq!([one.len(), other.len()], [length; 2]);
            assert!(one.iter().zip(&other).all(|(one, other)| *one == !other));
        }
    }
}
