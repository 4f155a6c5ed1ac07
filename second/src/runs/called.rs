//! A run by the second program, call by call, and what the caller knows of it.

use super::run::{Buffer, Fill, Run, Step};
use crate::arrival::{end, piece, Arrival, State, AFTER_THE_END, OTHER_BUFFER};
use crate::footprint::MOST_BYTES;

/// What has come of a file since its first call.
#[derive(Clone, Debug, Default)]
pub struct Gathered {
    /// All pieces that were taken, whether they fit or not.
    pub file: Vec<u8>,
    /// How much of it had come before each of them that was not empty.
    pub cuts: Vec<usize>,
    pub empty_pieces: usize,
    /// Calls with a wrong buffer among them.
    pub wrong_buffers: usize,
    /// Whether another file was in the buffer before.
    pub again: bool,
    /// Whether somebody has written to the buffer where something had come, or behind that.
    pub touched: bool,
    pub touched_behind: bool,
}

/// One call.
#[derive(Debug)]
pub struct Called<'a> {
    pub step: &'a Step,
    /// What was handed in, and whether no call has given it back.
    pub before: State,
    pub made_up: bool,
    pub answer: Arrival,
    /// The number of the call before.
    pub number_before: Option<u32>,
    /// The number that the file's end was answered with, after it.
    pub ended_with: Option<u32>,
    /// Of an end that was taken, in a run whose states all come from calls.
    pub gathered: Option<Gathered>,
}

impl Called<'_> {
    pub fn buffer(&self) -> Buffer {
        match self.step {
            Step::Piece { buffer, .. } | Step::End { buffer } => *buffer,
            _ => unreachable!("only calls are answered"),
        }
    }

    pub fn is_end(&self) -> bool {
        matches!(self.step, Step::End { .. })
    }

    /// Of a piece.
    pub fn length(&self) -> Option<usize> {
        match self.step {
            Step::Piece { bytes, .. } => Some(bytes.len()),
            _ => None,
        }
    }

    pub fn is_empty_piece(&self) -> bool {
        self.length() == Some(0)
    }

    /// A piece that is not empty.
    pub fn has_bytes(&self) -> bool {
        self.length().unwrap_or(0) > 0
    }

    /// Whether it was refused neither with 22 nor with 23.
    pub fn taken(&self) -> bool {
        ![AFTER_THE_END, OTHER_BUFFER].contains(&self.answer.number)
    }
}

pub struct Second {
    pub buffer: Vec<u8>,
    state: State,
    made_up: bool,
    gathered: Option<Gathered>,
    number_before: Option<u32>,
    ended_with: Option<u32>,
}

impl Second {
    pub fn new(fill: Fill) -> Self {
        Second {
            buffer: fill.bytes(MOST_BYTES),
            state: State::default(),
            made_up: false,
            gathered: Some(Gathered::default()),
            number_before: None,
            ended_with: None,
        }
    }

    /// None where the step is no call.
    pub fn step<'a>(&mut self, step: &'a Step) -> Option<Called<'a>> {
        let answer = match step {
            Step::Piece { bytes, buffer, .. } if !buffer.will_do() => {
                piece(self.state, bytes, &mut vec![46; buffer.length()])
            }
            Step::Piece { bytes, .. } => piece(self.state, bytes, &mut self.buffer),
            Step::End { buffer } if !buffer.will_do() => end(self.state, &vec![46; buffer.length()]),
            Step::End { .. } => end(self.state, &self.buffer),
            Step::Touch { place, bytes } => {
                self.touch(*place, bytes);
                return None;
            }
            Step::State(state) => {
                self.hand_in(*state);
                return None;
            }
        };
        let mut called = Called {
            step,
            before: self.state,
            made_up: self.made_up,
            answer,
            number_before: self.number_before,
            ended_with: self.ended_with,
            gathered: None,
        };
        self.gather(&called);
        if called.is_end() && called.taken() {
            called.gathered = self.gathered.take();
            self.ended_with = Some(answer.number);
        }
        self.state = answer.state();
        self.number_before = Some(answer.number);
        Some(called)
    }

    fn touch(&mut self, place: usize, bytes: &[u8]) {
        self.buffer[place..place + bytes.len()].copy_from_slice(bytes);
        if let Some(gathered) = &mut self.gathered {
            gathered.touched |= place < gathered.file.len();
            gathered.touched_behind |= place + bytes.len() > gathered.file.len();
        }
    }

    /// With the numbers with which everything begins, another file begins.
    fn hand_in(&mut self, state: State) {
        let again = State::default() == state;
        self.made_up = !again;
        self.gathered = again.then(|| Gathered { again: self.ended_with.is_some(), ..Gathered::default() });
        self.ended_with = None;
        self.state = state;
    }

    /// By what a caller knows, and not by what was answered.
    fn gather(&mut self, called: &Called) {
        let gathered = match &mut self.gathered {
            Some(gathered) => gathered,
            None => return,
        };
        if !called.buffer().will_do() {
            gathered.wrong_buffers += 1;
            return;
        }
        if let Step::Piece { bytes, .. } = called.step {
            if bytes.is_empty() {
                gathered.empty_pieces += 1;
            } else {
                gathered.cuts.push(gathered.file.len());
                gathered.file.extend(bytes);
            }
        }
    }
}

/// Every call of a run.
pub fn calls_of(run: &Run) -> Vec<Called<'_>> {
    let mut second = Second::new(run.fill);
    run.steps.iter().filter_map(|step| second.step(step)).collect()
}

#[cfg(test)]
mod tests {
    use super::*;
    use crate::footprint::{judge, Verdict};
    use crate::random::Random;
    use crate::runs::worked::all;
    use crate::runs::CLASSES;

    /// Of a file that came in pieces the same is said as of the whole.
    fn expect_the_whole_answer(run: &Run) {
        for called in calls_of(run) {
            if let Some(gathered) = called.gathered.filter(|gathered| !gathered.touched) {
                let Arrival { number, place, .. } = called.answer;
                assert_eq!(Verdict { number, place }, judge(&gathered.file), "{run:?}");
            }
        }
    }

    #[test]
    fn worked_runs() {
        all().iter().for_each(|worked| expect_the_whole_answer(&worked.run));
    }

    #[test]
    fn runs_of_all_classes() {
        let mut random = Random::new(8);
        for class in CLASSES.iter().cycle().take(500) {
            expect_the_whole_answer(&class.run(&mut random));
        }
    }
}
