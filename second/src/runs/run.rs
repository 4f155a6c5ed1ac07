//! Calls for the pieces of a file and for its end, one after the other, each with a buffer.

use crate::arrival::State;
use crate::footprint::MOST_BYTES;
use crate::random::Random;

/// What a buffer holds when it is first lent.
#[derive(Clone, Copy, Debug)]
pub enum Fill {
    Same(u8),
    /// From this byte on always one more, and no zeros.
    Rising(u8),
}

impl Fill {
    pub fn any(random: &mut Random) -> Fill {
        let byte = random.bits() as u8;
        random.pick(&[Fill::Rising(byte), Fill::Rising(byte), Fill::Same(byte), Fill::Same(0)])
    }

    pub fn bytes(self, length: usize) -> Vec<u8> {
        let start = match self {
            Fill::Same(byte) => return vec![byte; length],
            Fill::Rising(start) => usize::from(start),
        };
        let period: Vec<u8> = (start..start + 255).map(|k| (k % 255) as u8 + 1).collect();
        let mut bytes = period.repeat(length / period.len() + 1);
        bytes.truncate(length);
        bytes
    }
}

/// What is lent for a call.
#[derive(Clone, Copy, Debug, PartialEq, Eq)]
pub enum Buffer {
    /// The one that the file goes into.
    Right,
    /// No more than so many of its first bytes.
    Front(usize),
    /// Another one of so many bytes.
    Other(usize),
    Null,
}

impl Buffer {
    pub fn length(self) -> usize {
        match self {
            Buffer::Right => MOST_BYTES,
            Buffer::Front(length) | Buffer::Other(length) => length,
            Buffer::Null => 0,
        }
    }

    /// Whether it has the length that it must have.
    pub fn will_do(self) -> bool {
        self.length() == MOST_BYTES
    }
}

#[derive(Clone, Debug)]
pub enum Step {
    /// An empty one is lent as NULL if that is said.
    Piece {
        bytes: Vec<u8>,
        null: bool,
        buffer: Buffer,
    },
    End {
        buffer: Buffer,
    },
    /// Somebody else writes to the buffer, from a place on.
    Touch {
        place: usize,
        bytes: Vec<u8>,
    },
    /// What is handed in next, whatever the last call has given back.
    State(State),
}

/// Begins with nothing arrived and nothing ended.
#[derive(Clone, Debug)]
pub struct Run {
    /// What the buffer holds when it is first lent.
    pub fill: Fill,
    pub steps: Vec<Step>,
}

pub fn piece(bytes: &[u8]) -> Step {
    piece_into(Buffer::Right, bytes)
}

pub fn piece_into(buffer: Buffer, bytes: &[u8]) -> Step {
    Step::Piece { bytes: bytes.to_vec(), null: false, buffer }
}

/// An empty piece that is lent as NULL.
pub fn null_piece() -> Step {
    Step::Piece { bytes: Vec::new(), null: true, buffer: Buffer::Right }
}

pub fn end() -> Step {
    Step::End { buffer: Buffer::Right }
}

pub fn end_with(buffer: Buffer) -> Step {
    Step::End { buffer }
}

pub fn touch(place: usize, bytes: &[u8]) -> Step {
    Step::Touch { place, bytes: bytes.to_vec() }
}

pub fn state(arrived: u32, ended: u32) -> Step {
    Step::State(State { arrived, ended })
}
