//! Runs worked by hand, with the answer that the rules give to every call and the buffer that they leave.

mod lengths;
mod states;

use super::run::{end, end_with, null_piece, piece, piece_into, Buffer, Fill, Run, Step};
use crate::files::worked::{all as all_files, changed, EXAMPLE, SHORTEST, THREE};
use crate::footprint::MOST_BYTES;

/// Number, place, arrived and ended.
pub type Answer = [u32; 4];

pub struct Worked {
    pub run: Run,
    /// Of every call in turn.
    pub answers: Vec<Answer>,
    /// Where the buffer is not as it was lent in the end, and what it holds there.
    pub left: Vec<(usize, Vec<u8>)>,
}

impl Worked {
    pub fn buffer(&self) -> Vec<u8> {
        let mut buffer = self.run.fill.bytes(MOST_BYTES);
        for (place, bytes) in &self.left {
            buffer[*place..*place + bytes.len()].copy_from_slice(bytes);
        }
        buffer
    }
}

/// Two entries with one id, and no triangles though they should have some.
#[rustfmt::skip]
const TWICE_SEVEN: [u8; 36] = [
    7, 0, 0, 0, 0, 0, 0, 0, 1, 0, 0, 0,
    7, 0, 0, 0, 24, 0, 0, 0, 1, 0, 1, 0,
    0, 0, 0, 0, 2, 0, 0, 0, 36, 0, 0, 0,
];

/// Beside a step that is no call.
const NO_CALL: Answer = [0; 4];

fn worked(told: Vec<(Step, Answer)>, left: &[(usize, &[u8])]) -> Worked {
    let (mut steps, mut answers) = (Vec::new(), Vec::new());
    for (step, answer) in told {
        if matches!(step, Step::Piece { .. } | Step::End { .. }) {
            answers.push(answer);
        }
        steps.push(step);
    }
    let left = left.iter().map(|(place, bytes)| (*place, bytes.to_vec())).collect();
    Worked { run: Run { fill: Fill::Same(0xa5), steps }, answers, left }
}

pub fn all() -> Vec<Worked> {
    [whole(), cut(), empty_pieces(), short(), after_the_end(), wrong_buffers()]
        .into_iter()
        .chain([lengths::full(), lengths::too_long()])
        .chain([states::handed_in(), states::touched(), states::begun_again()])
        .flatten()
        .collect()
}

/// The files worked by hand, good and refused ones, each as one piece; the end is said twice.
fn whole() -> Vec<Worked> {
    let of = |file: &[u8], number: u32, place: u32| {
        let length = file.len() as u32;
        worked(
            vec![
                (piece(file), [0, 0, length, 0]),
                (end(), [number, place, length, 1]),
                (end(), [22, 0, length, 1]),
            ],
            &[(0, file)],
        )
    };
    all_files().iter().map(|known| of(&known.file, known.number, known.place)).collect()
}

/// In two pieces, at every place; byte by byte; and in uneven ones.
fn cut() -> Vec<Worked> {
    let mut all = Vec::new();
    let spoiled = [
        (changed(&EXAMPLE, 80, 83), 12, 0),
        (changed(&EXAMPLE, 76, 3), 13, 72),
        (changed(&EXAMPLE, 70, 255), 14, 60),
        (changed(&EXAMPLE, 68, 2), 15, 48),
        (changed(&EXAMPLE, 60, 7), 16, 60),
        (changed(&EXAMPLE, 27, 127), 17, 24),
        (changed(&EXAMPLE, 20, 0), 18, 0),
    ];
    let good = [SHORTEST.to_vec(), EXAMPLE.to_vec()].map(|file| (file, 0, 0));
    for (file, number, place) in good.into_iter().chain(spoiled) {
        let length = file.len() as u32;
        for at in 0..=file.len() {
            all.push(worked(
                vec![
                    (piece(&file[..at]), [0, 0, at as u32, 0]),
                    (piece(&file[at..]), [0, 0, length, 0]),
                    (end(), [number, place, length, 1]),
                ],
                &[(0, &file)],
            ));
        }
    }
    for (file, number, place) in [(&EXAMPLE[..], 0, 0), (&TWICE_SEVEN, 16, 12), (&TWICE_SEVEN[..35], 12, 0)] {
        let mut told: Vec<(Step, Answer)> =
            (0..file.len()).map(|k| (piece(&file[k..=k]), [0, 0, k as u32 + 1, 0])).collect();
        told.push((end(), [number, place, file.len() as u32, 1]));
        all.push(worked(told, &[(0, file)]));
    }
    all.push(worked(
        vec![
            (piece(&THREE[..5]), [0, 0, 5, 0]),
            (piece(&THREE[5..6]), [0, 0, 6, 0]),
            (piece(&THREE[6..139]), [0, 0, 139, 0]),
            (piece(&THREE[139..144]), [0, 0, 144, 0]),
            (end(), [0, 0, 144, 1]),
        ],
        &[(0, &THREE)],
    ));
    all
}

fn empty_pieces() -> Vec<Worked> {
    vec![
        worked(
            vec![
                (piece(&[]), [0, 0, 0, 0]),
                (null_piece(), [0, 0, 0, 0]),
                (piece(&EXAMPLE[..10]), [0, 0, 10, 0]),
                (null_piece(), [0, 0, 10, 0]),
                (piece(&EXAMPLE[10..]), [0, 0, 84, 0]),
                (piece(&[]), [0, 0, 84, 0]),
                (end(), [0, 0, 84, 1]),
                (null_piece(), [22, 0, 84, 1]),
                (piece(&[]), [22, 0, 84, 1]),
            ],
            &[(0, &EXAMPLE)],
        ),
        worked(
            vec![
                (null_piece(), [0, 0, 0, 0]),
                (piece(&[]), [0, 0, 0, 0]),
                (end(), [11, 0, 0, 1]),
                (piece(&[]), [22, 0, 0, 1]),
            ],
            &[],
        ),
    ]
}

/// Fewer than twelve bytes, and a good file that has not come as a whole.
fn short() -> Vec<Worked> {
    let mut all = vec![worked(vec![(end(), [11, 0, 0, 1])], &[])];
    for length in [1, 11] {
        let told = vec![
            (piece(&SHORTEST[..length as usize]), [0, 0, length, 0]),
            (end(), [11, 0, length, 1]),
            (piece(&SHORTEST[length as usize..]), [22, 0, length, 1]),
            (end(), [22, 0, length, 1]),
        ];
        all.push(worked(told, &[(0, &SHORTEST[..length as usize])]));
    }
    // The last four bytes of the first 83 are not 83.
    let told = vec![
        (piece(&EXAMPLE[..83]), [0, 0, 83, 0]),
        (end(), [12, 0, 83, 1]),
        (piece(&EXAMPLE[83..]), [22, 0, 83, 1]),
        (end(), [22, 0, 83, 1]),
    ];
    all.push(worked(told, &[(0, &EXAMPLE[..83])]));
    all
}

/// After a good end, a refused one, and one with nothing before it.
fn after_the_end() -> Vec<Worked> {
    let flat = changed(&EXAMPLE, 20, 0);
    let mut all = Vec::new();
    for (file, number) in [(&EXAMPLE[..], 0), (&flat, 18), (&[], 11)] {
        let length = file.len() as u32;
        let refused = [22, 0, length, 1];
        all.push(worked(
            vec![
                (piece(file), [0, 0, length, 0]),
                (end(), [number, 0, length, 1]),
                (piece(&SHORTEST), refused),
                (piece(&[]), refused),
                (null_piece(), refused),
                (end(), refused),
                (piece(&vec![7; MOST_BYTES + 1]), refused),
                (end(), refused),
            ],
            &[(0, file)],
        ));
    }
    all
}

/// Refused before anything, between pieces, and after the end; nothing comes of it.
fn wrong_buffers() -> Vec<Worked> {
    let wrong = [
        Buffer::Null,
        Buffer::Other(0),
        Buffer::Other(12),
        Buffer::Other(84),
        Buffer::Front(84),
        Buffer::Other(65_535),
        Buffer::Front(65_535),
        Buffer::Other(65_537),
        Buffer::Other(65_600),
    ];
    let mut all = Vec::new();
    for buffer in wrong {
        let mut told = Vec::new();
        let refused = |told: &mut Vec<(Step, Answer)>, answer: Answer| {
            told.push((piece_into(buffer, &EXAMPLE), answer));
            told.push((piece_into(buffer, &[]), answer));
            told.push((end_with(buffer), answer));
        };
        refused(&mut told, [23, 0, 0, 0]);
        told.push((piece(&EXAMPLE[..50]), [0, 0, 50, 0]));
        refused(&mut told, [23, 0, 50, 0]);
        told.push((piece(&EXAMPLE[50..]), [0, 0, 84, 0]));
        refused(&mut told, [23, 0, 84, 0]);
        told.push((end(), [0, 0, 84, 1]));
        refused(&mut told, [23, 0, 84, 1]);
        told.push((piece(&EXAMPLE), [22, 0, 84, 1]));
        told.push((end(), [22, 0, 84, 1]));
        all.push(worked(told, &[(0, &EXAMPLE)]));
    }
    all
}
