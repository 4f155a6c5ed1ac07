//! States that no call has given back, and buffers that somebody else has written to.

use super::{worked, Worked, NO_CALL};
use crate::files::worked::{changed, numbered, EXAMPLE, SHORTEST};
use crate::runs::run::{end, end_with, piece, piece_into, state, touch, Buffer};

/// Numbers that no call has given back.
pub fn handed_in() -> Vec<Worked> {
    let mut all = Vec::new();
    for ended in [1, 2, 255, 256, 65_536, 1 << 31, u32::MAX] {
        for arrived in [0, 84, 65_537, u32::MAX] {
            let (after, other) = ([22, 0, arrived, ended], [23, 0, arrived, ended]);
            let told = vec![
                (state(arrived, ended), NO_CALL),
                (piece(&SHORTEST), after),
                (piece(&[]), after),
                (end(), after),
                (piece_into(Buffer::Other(65_537), &SHORTEST), other),
                (piece_into(Buffer::Other(65_535), &[]), other),
                (end_with(Buffer::Front(84)), other),
                (end(), after),
            ];
            all.push(worked(told, &[]));
        }
    }
    for arrived in [65_537, 65_538, 65_620, 131_072, 131_084, 1 << 31, u32::MAX - 83, u32::MAX] {
        let told = vec![
            (state(arrived, 0), NO_CALL),
            (piece_into(Buffer::Front(65_535), &EXAMPLE), [23, 0, arrived, 0]),
            (end_with(Buffer::Other(65_537)), [23, 0, arrived, 0]),
            (piece(&EXAMPLE), [0, 0, 65_537, 0]),
            (state(arrived, 0), NO_CALL),
            (piece(&[]), [0, 0, 65_537, 0]),
            (state(arrived, 0), NO_CALL),
            (piece(&EXAMPLE[..1]), [0, 0, 65_537, 0]),
            (state(arrived, 0), NO_CALL),
            (piece(&vec![7; 70_000]), [0, 0, 65_537, 0]),
            (state(arrived, 0), NO_CALL),
            (end(), [11, 0, 65_537, 1]),
            (end(), [22, 0, 65_537, 1]),
        ];
        all.push(worked(told, &[]));
    }
    all.extend(within_the_buffer());
    all
}

/// So many bytes have not come, but what the buffer holds counts.
fn within_the_buffer() -> Vec<Worked> {
    vec![
        worked(
            vec![(touch(0, &SHORTEST), NO_CALL), (state(12, 0), NO_CALL), (end(), [0, 0, 12, 1])],
            &[(0, &SHORTEST)],
        ),
        worked(
            vec![
                (touch(0, &EXAMPLE[..60]), NO_CALL),
                (state(60, 0), NO_CALL),
                (piece(&EXAMPLE[60..]), [0, 0, 84, 0]),
                (end(), [0, 0, 84, 1]),
            ],
            &[(0, &EXAMPLE)],
        ),
        worked(
            vec![
                (state(65_530, 0), NO_CALL),
                (piece(&[1, 2, 3, 4, 5, 6]), [0, 0, 65_536, 0]),
                (piece(&[]), [0, 0, 65_536, 0]),
                // 6 × 2^24 and more
                (end(), [12, 0, 65_536, 1]),
            ],
            &[(65_530, &[1, 2, 3, 4, 5, 6])],
        ),
        worked(
            vec![
                (state(65_536, 0), NO_CALL),
                (piece(&[1]), [0, 0, 65_537, 0]),
                (end(), [11, 0, 65_537, 1]),
                (state(65_536, 0), NO_CALL),
                (end(), [12, 0, 65_536, 1]),
            ],
            &[],
        ),
    ]
}

/// The end judges what the buffer holds then, as far as something has arrived.
pub fn touched() -> Vec<Worked> {
    let spoiled = changed(&EXAMPLE, 82, 1);
    vec![
        worked(
            vec![(piece(&EXAMPLE), [0, 0, 84, 0]), (touch(82, &[1]), NO_CALL), (end(), [12, 0, 84, 1])],
            &[(0, &spoiled)],
        ),
        worked(
            vec![
                (piece(&spoiled[..83]), [0, 0, 83, 0]),
                (touch(82, &[0]), NO_CALL),
                (piece(&spoiled[83..]), [0, 0, 84, 0]),
                (end(), [0, 0, 84, 1]),
            ],
            &[(0, &EXAMPLE)],
        ),
        // Behind what has arrived it changes nothing, and stays unless a piece comes there.
        worked(
            vec![
                (touch(0, &[1; 100]), NO_CALL),
                (piece(&EXAMPLE[..40]), [0, 0, 40, 0]),
                (touch(65_535, &[2]), NO_CALL),
                (touch(44, &[3; 4]), NO_CALL),
                (piece(&EXAMPLE[40..]), [0, 0, 84, 0]),
                (touch(84, &[4]), NO_CALL),
                (end(), [0, 0, 84, 1]),
            ],
            &[(0, &EXAMPLE), (84, &[4]), (85, &[1; 15]), (65_535, &[2])],
        ),
        worked(
            vec![
                (piece(&[7; 65_537]), [0, 0, 65_537, 0]),
                (touch(0, &EXAMPLE), NO_CALL),
                (end(), [11, 0, 65_537, 1]),
            ],
            &[(0, &EXAMPLE), (84, &vec![7; 65_452])],
        ),
    ]
}

/// Another file in the same buffer, by the state with which everything begins.
pub fn begun_again() -> Vec<Worked> {
    let five = numbered(5);
    vec![
        worked(
            vec![
                (piece(&EXAMPLE), [0, 0, 84, 0]),
                (end(), [0, 0, 84, 1]),
                (state(0, 0), NO_CALL),
                (piece(&SHORTEST), [0, 0, 12, 0]),
                (end(), [0, 0, 12, 1]),
            ],
            &[(0, &SHORTEST), (12, &EXAMPLE[12..])],
        ),
        worked(
            vec![
                (piece(&vec![7; 65_540]), [0, 0, 65_537, 0]),
                (end(), [11, 0, 65_537, 1]),
                (state(0, 0), NO_CALL),
                (piece(&five[..100]), [0, 0, 100, 0]),
                (piece(&five[100..]), [0, 0, 192, 0]),
                (end(), [0, 0, 192, 1]),
                (end(), [22, 0, 192, 1]),
            ],
            &[(0, &five), (192, &vec![7; 65_344])],
        ),
    ]
}
