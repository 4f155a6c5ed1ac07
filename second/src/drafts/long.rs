//! Drafts so long that each is taken once only, with the numbers that the rules give them. The rooms that are
//! lent for them would do.

use super::draft::Draft;
use super::worked::V;

/// Its name, its number, and how it is made.
pub struct Long(pub &'static str, pub u32, pub fn() -> Draft);

pub const LONG: [Long; 23] = [
    Long("3,000 recordings", 13, || recordings(3_000)),
    Long("the last of 3,000 ids is the first", 16, || with(recordings(3_000), |d| d.ids[2_999] = d.ids[0])),
    Long("the last of 3,000 ids is the one before", 16, || {
        with(recordings(3_000), |d| d.ids[2_999] = d.ids[2_998])
    }),
    Long("the last of 3,000 ids is another", 16, || with(recordings(3_000), |d| d.ids[2_999] = d.ids[1_700])),
    Long("the last of 3,000 sets is 2", 14, || with(recordings(3_000), |d| d.sets[2_999] = 2)),
    Long("the last of 3,000 sets is 3", 14, || with(recordings(3_000), |d| d.sets[2_999] = 3)),
    Long("the last of 3,000 lasts is 1, of a test", 13, || with(recordings(3_000), |d| d.lasts[2_999] = 1)),
    Long("the last of 3,000 lasts is 1, of a training", 14, || {
        with(recordings(3_000), |d| (d.sets[2_999], d.lasts[2_999]) = (0, 1))
    }),
    Long("the last of 3,000 lasts is 2", 14, || with(recordings(3_000), |d| d.lasts[2_999] = 2)),
    Long("the last of 3,000 counts is zero", 14, || with(recordings(3_000), |d| d.counts[2_999] = 0)),
    Long("the last of 3,000 counts is too large", 15, || with(recordings(3_000), |d| d.counts[2_999] = 2)),
    // 2,048 times 2^21 are 2^32.
    Long("2,048 counts with a sum right to 32 bits", 15, || {
        with(recordings(2_048), |d| d.counts.iter_mut().for_each(|count| *count += 1 << 21))
    }),
    Long("65,535 triangles of one recording", 19, || one_of(65_535)),
    Long("65,536 triangles of one recording", 19, || one_of(65_536)),
    Long("65,537 triangles of one recording", 19, || one_of(65_537)),
    Long("65,537 triangles, the last one flat", 18, || {
        with(one_of(65_537), |d| d.set_triangle(65_536, [3; 6]))
    }),
    Long("65,538 triangles, the count 65,537", 15, || with(one_of(65_538), |d| d.counts[0] = 65_537)),
    Long("65,536 triangles and 64 recordings more", 13, || {
        with(one_of(65_536), |d| (0..64).for_each(|k| d.add(8 + k, 1, V)))
    }),
    Long("65,536 triangles and the same id again", 16, || with(one_of(65_536), |d| d.add(7, 0, V))),
    Long("100,000 triangles of one recording", 19, || one_of(100_000)),
    Long("100,000 triangles, the last one flat", 18, || {
        with(one_of(100_000), |d| d.set_triangle(99_999, [3; 6]))
    }),
    Long("100,000 triangles, the last number out of range", 17, || {
        with(one_of(100_000), |d| d.numbers[599_999] = 1_000_001)
    }),
    Long("100,000 triangles, the count 100,001", 15, || with(one_of(100_000), |d| d.counts[0] = 100_001)),
];

/// No two ids alike, nor in any order.
fn recordings(count: u32) -> Draft {
    let mut draft = Draft::default();
    (0..count).for_each(|k| draft.add(k.wrapping_mul(0x9e37_79b1), (k % 2) as u8, V));
    draft
}

fn one_of(triangles: u32) -> Draft {
    Draft {
        ids: vec![7],
        counts: vec![triangles],
        sets: vec![0],
        lasts: vec![0],
        numbers: V.repeat(triangles as usize),
    }
}

fn with(mut draft: Draft, edit: fn(&mut Draft)) -> Draft {
    edit(&mut draft);
    draft
}

#[cfg(test)]
mod tests {
    use super::*;
    use crate::writer::{write, Written};

    #[test]
    fn numbers_are_as_known() {
        for Long(name, number, draft) in LONG {
            let draft = draft();
            let mut room = vec![0; draft.length()];
            let expected = Written { number, place: 0, length: 0 };
            assert_eq!(write(draft.handed(), &mut room), expected, "{name}");
            assert!(room.iter().all(|byte| *byte == 0), "{name}");
        }
    }
}
