//! A footprint file comes in pieces, which go into one lent buffer, and ends when the sender says so; then
//! whether it is a good file comes out. Everything follows the rules, test by test.

#[cfg(test)]
mod worked;

use crate::footprint::{judge, Reason, Verdict, MOST_BYTES};

pub const AFTER_THE_END: u32 = 22;
pub const OTHER_BUFFER: u32 = 23;

/// What has arrived of a file that is too long, however long it is.
pub const TOO_LONG: u32 = MOST_BYTES as u32 + 1;

/// The two numbers that the caller keeps from call to call. Any number of `ended` but 0 means that the file has
/// ended.
#[derive(Clone, Copy, Debug, Default, PartialEq, Eq)]
pub struct State {
    pub arrived: u32,
    pub ended: u32,
}

/// Laid out as the C interface's `meskelow_arrival`.
#[repr(C)]
#[derive(Clone, Copy, Debug, Default, PartialEq, Eq)]
pub struct Arrival {
    pub number: u32,
    pub place: u32,
    pub arrived: u32,
    pub ended: u32,
}

impl Arrival {
    /// What the caller hands in next.
    pub fn state(&self) -> State {
        State { arrived: self.arrived, ended: self.ended }
    }
}

/// What fits goes into the buffer, behind what has arrived before. Never inlined, so that a caller pays for a
/// call here as for one of a library.
#[inline(never)]
pub fn piece(state: State, piece: &[u8], buffer: &mut [u8]) -> Arrival {
    if let Some(refused) = refusal(state, buffer) {
        return refused;
    }
    if let Some(rest) = buffer.get_mut(state.arrived as usize..) {
        let kept = piece.len().min(rest.len());
        rest[..kept].copy_from_slice(&piece[..kept]);
    }
    // So wide that no total wraps.
    let total = u128::from(state.arrived) + piece.len() as u128;
    Arrival { number: 0, place: 0, arrived: total.min(u128::from(TOO_LONG)) as u32, ended: 0 }
}

/// The answer is that of the file that has arrived.
#[inline(never)]
pub fn end(state: State, buffer: &[u8]) -> Arrival {
    if let Some(refused) = refusal(state, buffer) {
        return refused;
    }
    let verdict = match buffer.get(..state.arrived as usize) {
        Some(file) => judge(file),
        None => Verdict { number: Reason::Length.number(), place: 0 },
    };
    let arrived = state.arrived.min(TOO_LONG);
    Arrival { number: verdict.number, place: verdict.place, arrived, ended: 1 }
}

/// The buffer first, then whether the file has ended; the state is handed back as it is.
fn refusal(state: State, buffer: &[u8]) -> Option<Arrival> {
    let State { arrived, ended } = state;
    let refused = |number: u32| Some(Arrival { number, place: 0, arrived, ended });
    if buffer.len() != MOST_BYTES {
        return refused(OTHER_BUFFER);
    }
    if ended != 0 {
        return refused(AFTER_THE_END);
    }
    None
}
