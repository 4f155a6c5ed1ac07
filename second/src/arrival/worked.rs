//! The runs that are worked by hand.

use super::{end, piece, Arrival, State, TOO_LONG};
use crate::files::worked::{all as all_files, EXAMPLE};
use crate::footprint::{judge, MOST_BYTES};
use crate::pages::endless;
use crate::runs::run::{Run, Step};
use crate::runs::worked::{all, Answer};

/// What every call gives back, and the buffer in the end. Another buffer must stay as it is.
fn run(run: &Run) -> (Vec<Answer>, Vec<u8>) {
    let mut buffer = run.fill.bytes(MOST_BYTES);
    let (mut state, mut answers) = (State::default(), Vec::new());
    for step in &run.steps {
        let lent = |length: usize| vec![46; length];
        let answer = match step {
            Step::Piece { bytes, buffer: of, .. } if !of.will_do() => {
                let mut other = lent(of.length());
                let answer = piece(state, bytes, &mut other);
                assert_eq!(other, lent(of.length()));
                answer
            }
            Step::Piece { bytes, .. } => piece(state, bytes, &mut buffer),
            Step::End { buffer: of } if !of.will_do() => end(state, &lent(of.length())),
            Step::End { .. } => end(state, &buffer),
            Step::Touch { place, bytes } => {
                buffer[*place..*place + bytes.len()].copy_from_slice(bytes);
                continue;
            }
            Step::State(handed_in) => {
                state = *handed_in;
                continue;
            }
        };
        state = answer.state();
        let Arrival { number, place, arrived, ended } = answer;
        answers.push([number, place, arrived, ended]);
    }
    (answers, buffer)
}

#[test]
fn runs() {
    for (k, worked) in all().iter().enumerate() {
        let (answers, buffer) = run(&worked.run);
        assert_eq!(answers, worked.answers, "run {k}: {:?}", worked.run);
        assert!(buffer == worked.buffer(), "run {k}: {:?}", worked.run);
    }
}

#[test]
fn three_pieces_at_every_two_places() {
    let file = &EXAMPLE[..];
    for (first, second) in (0..=84).flat_map(|second| (0..=second).map(move |first| (first, second))) {
        let mut buffer = vec![46; MOST_BYTES];
        let mut state = State::default();
        for bytes in [&file[..first], &file[first..second], &file[second..]] {
            state = piece(state, bytes, &mut buffer).state();
        }
        assert_eq!((state, &buffer[..84]), (State { arrived: 84, ended: 0 }, file));
        assert_eq!(end(state, &buffer), Arrival { number: 0, place: 0, arrived: 84, ended: 1 });
    }
}

#[test]
fn even_pieces() {
    for known in all_files() {
        for length in 1..=known.file.len().min(90) {
            let mut buffer = vec![46; MOST_BYTES];
            let mut state = State::default();
            for bytes in known.file.chunks(length) {
                state = piece(state, bytes, &mut buffer).state();
            }
            let answer = end(state, &buffer);
            assert_eq!((answer.number, answer.place), (known.number, known.place));
            assert!(buffer[known.file.len()..].iter().all(|byte| *byte == 46));
        }
    }
}

/// Totals that are short to whoever counts to 32 bits.
#[test]
fn past_32_bits() {
    let long = endless(&EXAMPLE);
    for arrived in [0, 1, 84, 65_536, 65_537, u32::MAX] {
        let mut buffer = vec![46; MOST_BYTES];
        let state = State { arrived, ended: 0 };
        let over = piece(state, long, &mut buffer);
        assert_eq!(over, Arrival { number: 0, place: 0, arrived: TOO_LONG, ended: 0 });
        let untouched = buffer.iter().take_while(|byte| **byte == 46).count();
        assert_eq!(untouched, MOST_BYTES.min(arrived as usize));
        assert!(buffer[untouched..] == long[..MOST_BYTES - untouched]);
        let ended = Arrival { number: 11, place: 0, arrived: TOO_LONG, ended: 1 };
        assert_eq!(end(over.state(), &buffer), ended);
    }
    assert_eq!(judge(long).number, 11);
    let state = State { arrived: 84, ended: 0 };
    let buffer = endless(&[46; MOST_BYTES]);
    assert_eq!(end(state, buffer), Arrival { number: 23, place: 0, arrived: 84, ended: 0 });
}
