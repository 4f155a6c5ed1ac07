//! As many bytes as the buffer has, nearly as many, and more.

use super::{worked, Worked};
use crate::files::worked::EXAMPLE;
use crate::runs::run::{end, end_with, null_piece, piece, Buffer};

/// A length that a file may have, though no good one has the last four of them.
pub fn full() -> Vec<Worked> {
    let mut all = Vec::new();
    for (lengths, total) in [
        (vec![65_535], 65_535),
        (vec![65_536], 65_536),
        (vec![65_535, 1], 65_536),
        (vec![1, 65_535], 65_536),
        (vec![30_000, 30_000, 5_536], 65_536),
        (vec![65_536, 0], 65_536),
    ] {
        let (mut told, mut arrived) = (Vec::new(), 0);
        for length in lengths {
            arrived += length;
            told.push((piece(&vec![0; length as usize]), [0, 0, arrived, 0]));
        }
        // Zeros store a length of zero.
        told.push((end(), [12, 0, total, 1]));
        told.push((piece(&[9]), [22, 0, total, 1]));
        all.push(worked(told, &[(0, &vec![0; total as usize])]));
    }
    all.extend(full_with_tables());
    all.extend(longest());
    all
}

/// 65,536 bytes with a trailer that says so, and a table before it.
fn full_with_tables() -> Vec<Worked> {
    let length = [0, 0, 1, 0];
    let entry = |id: u8, first: u8| [id, 0, 0, 0, first, 0, 0, 0, 1, 0, 0, 0];
    let tails = [
        // A table at 65,524 of no recordings, and at 65,520, where it does not end at the trailer
        (15, 65_524, [[0xf4, 0xff, 0, 0], [0; 4], length].concat()),
        (13, 65_524, [[0xf0, 0xff, 0, 0], [0; 4], length].concat()),
        // One of 65 recordings, at 65,524 - 780
        (13, 65_524, [[0xe8, 0xfc, 0, 0], [65, 0, 0, 0], length].concat()),
        // An entry of no triangles at 65,512
        (14, 65_512, [&[0; 12][..], &[0xe8, 0xff, 0, 0, 1, 0, 0, 0], &length].concat()),
        // One of a set that there is not
        (
            14,
            65_512,
            [&[7, 0, 0, 0, 0, 0, 0, 0, 1, 0, 3, 0, 0xe8, 0xff, 0, 0, 1, 0, 0, 0][..], &length].concat(),
        ),
        // Two entries from 65,500 on: with one id, and good ones whose triangles end at 48
        (16, 65_512, [&entry(7, 0)[..], &entry(7, 24), &[0xdc, 0xff, 0, 0, 2, 0, 0, 0], &length].concat()),
        (15, 65_500, [&entry(7, 0)[..], &entry(9, 24), &[0xdc, 0xff, 0, 0, 2, 0, 0, 0], &length].concat()),
    ];
    let mut all = Vec::new();
    for (number, place, tail) in tails {
        let zeros = vec![0; 65_536 - tail.len()];
        let before = zeros.len() as u32;
        let told = vec![
            (piece(&zeros[4..]), [0, 0, before - 4, 0]),
            (piece(&zeros[..4]), [0, 0, before, 0]),
            (piece(&tail), [0, 0, 65_536, 0]),
            (piece(&[]), [0, 0, 65_536, 0]),
            (end(), [number, place, 65_536, 1]),
        ];
        all.push(worked(told, &[(0, &zeros), (65_536 - tail.len(), &tail)]));
    }
    all
}

/// The table and the trailer of two recordings with 2,729 triangles: 65,532 bytes in all, as many as a good file
/// can have.
#[rustfmt::skip]
const TAIL_OF_LONGEST: [u8; 36] = [
    7, 0, 0, 0, 0, 0, 0, 0, 1, 0, 0, 0,
    9, 0, 0, 0, 24, 0, 0, 0, 0xa8, 0x0a, 1, 0,
    0xd8, 0xff, 0, 0, 2, 0, 0, 0, 0xfc, 0xff, 0, 0,
];

fn longest() -> Vec<Worked> {
    let mut file = EXAMPLE[..24].repeat(2_729);
    file.extend(TAIL_OF_LONGEST);
    let told = vec![
        (piece(&file[..40_000]), [0, 0, 40_000, 0]),
        (piece(&file[40_000..65_531]), [0, 0, 65_531, 0]),
        (piece(&file[65_531..]), [0, 0, 65_532, 0]),
        (end(), [0, 0, 65_532, 1]),
    ];
    let mut all = vec![worked(told, &[(0, &file)])];
    // The third triangle is flat, or far out of range.
    for (byte, number) in [(0, 18), (1, 17)] {
        let rest = vec![byte; 65_448];
        let told = vec![
            (piece(&EXAMPLE[..48]), [0, 0, 48, 0]),
            (piece(&rest), [0, 0, 65_496, 0]),
            (piece(&TAIL_OF_LONGEST), [0, 0, 65_532, 0]),
            (end(), [number, 48, 65_532, 1]),
        ];
        all.push(worked(told, &[(0, &EXAMPLE[..48]), (48, &rest), (65_496, &TAIL_OF_LONGEST)]));
    }
    all
}

/// What does not fit is dropped, and the end says 11.
pub fn too_long() -> Vec<Worked> {
    let mut all = Vec::new();
    let over = [0, 0, 65_537, 0];
    let at_the_end = [11, 0, 65_537, 1];
    let after = [22, 0, 65_537, 1];
    let sevens = vec![7; 65_536];
    for more in [1, 2, 12, 84, 65_536] {
        // At once, and with the buffer full before.
        let told = vec![(piece(&vec![7; 65_536 + more]), over), (end(), at_the_end), (end(), after)];
        all.push(worked(told, &[(0, &sevens)]));
        let told = vec![
            (piece(&sevens), [0, 0, 65_536, 0]),
            (piece(&vec![8; more]), over),
            (piece(&[]), over),
            (null_piece(), over),
            (piece(&[9]), over),
            (piece(&vec![9; 70_000]), over),
            (end(), at_the_end),
            (piece(&[9]), after),
            (piece(&[]), after),
        ];
        all.push(worked(told, &[(0, &sevens)]));
    }
    // Six of twelve bytes fit.
    let told = vec![
        (piece(&vec![7; 65_530]), [0, 0, 65_530, 0]),
        (piece(&[1, 2, 3, 4, 5, 6, 7, 8, 9, 10, 11, 12]), over),
        (piece(&[13]), over),
        (end(), at_the_end),
    ];
    all.push(worked(told, &[(0, &vec![7; 65_530]), (65_530, &[1, 2, 3, 4, 5, 6])]));
    for before in [65_530, 65_535] {
        let told = vec![
            (piece(&sevens[..before]), [0, 0, before as u32, 0]),
            (piece(&vec![8; 70_000]), over),
            (end(), at_the_end),
        ];
        all.push(worked(told, &[(0, &sevens[..before]), (before, &vec![8; 65_536 - before])]));
    }
    // To 16 bits the example is all there is, and the buffer begins with it.
    let told = vec![
        (piece(&EXAMPLE), [0, 0, 84, 0]),
        (piece(&vec![0; 65_536]), over),
        (end_with(Buffer::Other(65_537)), [23, 0, 65_537, 0]),
        (end(), at_the_end),
        (end_with(Buffer::Other(65_537)), [23, 0, 65_537, 1]),
    ];
    all.push(worked(told, &[(0, &EXAMPLE), (84, &vec![0; 65_452])]));
    all
}
