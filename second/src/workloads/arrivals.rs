//! The file that is judged, in pieces of one length, and then its end, again and again.

use std::time::Instant;

use super::{largest_file, unforeseen};
use crate::arrival::{Arrival, State};
use crate::footprint::MOST_BYTES;

/// The length of a piece stands behind the dash.
pub const ARRIVAL: &str = "arrival-";
pub const ARRIVALS: [&str; 2] = ["arrival-512", "arrival-4096"];

pub struct Arrivals {
    file: Vec<u8>,
    length: usize,
}

/// What takes a piece, and what takes the end.
#[derive(Clone, Copy)]
pub struct Taker {
    pub piece: fn(State, &[u8], &mut [u8]) -> Arrival,
    pub end: fn(State, &[u8]) -> Arrival,
}

/// None where there is no workload of that name.
pub fn arrivals(name: &str) -> Option<Arrivals> {
    let length = name.strip_prefix(ARRIVAL)?.parse().ok().filter(|length| *length > 0)?;
    Some(Arrivals { file: largest_file(), length })
}

impl Arrivals {
    pub fn bytes(&self) -> usize {
        self.file.len()
    }

    /// The whole file with its end: one step of a checksum for each call.
    pub fn round(&self, sum: u64, taker: Taker, buffer: &mut [u8]) -> u64 {
        let (mut sum, mut state) = (sum, State::default());
        for piece in self.file.chunks(self.length) {
            let answer = (taker.piece)(state, unforeseen(piece), buffer);
            sum = fold_arrival(sum, answer);
            state = answer.state();
        }
        fold_arrival(sum, (taker.end)(state, unforeseen(buffer)))
    }

    /// The checksum, and the buffer as it is in the end.
    pub fn everything(&self, taker: Taker) -> (u64, Vec<u8>) {
        let mut buffer = vec![46; MOST_BYTES];
        (self.round(0, taker, &mut buffer), buffer)
    }

    /// Nanoseconds a byte. The buffer is made, and touched, before the clock runs.
    pub fn time(&self, taker: Taker) -> f64 {
        let mut buffer = vec![46; MOST_BYTES];
        let begin = Instant::now();
        unforeseen(self.round(0, taker, &mut buffer));
        begin.elapsed().as_nanos() as f64 / self.bytes() as f64
    }
}

#[inline]
fn fold_arrival(sum: u64, arrival: Arrival) -> u64 {
    let Arrival { number, place, arrived, ended } = arrival;
    let (said, state) =
        (u64::from(number) << 32 | u64::from(place), u64::from(arrived) << 32 | u64::from(ended));
    sum.rotate_left(7) ^ said.rotate_left(17).wrapping_add(state)
}

#[cfg(test)]
mod tests {
    use super::*;
    use crate::arrival::{end, piece};

    #[test]
    fn the_file_arrives() {
        let answers = ARRIVALS.map(|name| {
            let arrivals = arrivals(name).expect("there is such a workload");
            let (_, buffer) = arrivals.everything(Taker { piece, end });
            assert_eq!((&buffer[..65_532], &buffer[65_532..]), (&arrivals.file[..], &[46; 4][..]));
            let state = State { arrived: 65_532, ended: 0 };
            end(state, &buffer)
        });
        assert_eq!(answers, [Arrival { number: 0, place: 0, arrived: 65_532, ended: 1 }; 2]);
        assert!(["arrival-", "arrival-0", "file"].iter().all(|name| arrivals(name).is_none()));
    }
}
