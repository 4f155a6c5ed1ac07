//! Drafts worked by hand, with the number and the file that the rules give them.

use super::draft::Draft;
use super::orders;
use crate::files::draft::Triangle;
use crate::files::worked::{changed, numbered_of, EXAMPLE, SHORTEST, THREE};
use crate::writer::NUMBERS;

pub struct Worked {
    pub draft: Draft,
    pub room: usize,
    pub number: u32,
    /// Empty if it is refused.
    pub file: Vec<u8>,
}

/// Longer than any file of few recordings here.
const ROOM: usize = 200;
/// One coordinate more than the range has, on either side.
pub const OVER: i32 = 1_000_001;
pub const UNDER: i32 = -1_000_001;

/// V of case D, with which every recording here has a good triangle.
pub const V: Triangle = [0, 0, 4, 0, 0, 4];

/// The example: training recording 7 with V of case D, test recording 9 with U of case D.
pub fn example() -> Draft {
    Draft {
        ids: vec![7, 9],
        counts: vec![1, 1],
        sets: vec![0, 1],
        lasts: vec![0, 0],
        numbers: vec![0, 0, 4, 0, 0, 4, 1, 1, -3, 1, 1, -3],
    }
}

/// Two training recordings and a test, of one, two and one triangles.
#[rustfmt::skip]
pub fn three() -> Draft {
    Draft {
        ids: vec![0, 4_294_967_295, 5],
        counts: vec![1, 2, 1],
        sets: vec![0, 0, 1],
        lasts: vec![0, 0, 0],
        numbers: vec![
            0, 0, 0, 4, 4, 0,
            1_000_000, 1_000_000, -1_000_000, 1_000_000, 1_000_000, -1_000_000,
            0, 0, 65_536, 0, 0, 65_536,
            -1_000_000, -1_000_000, 1_000_000, 999_999, -999_999, -999_999,
        ],
    }
}

/// What is written from it: the first recording of `THREE`, which is held back there, is training.
pub fn file_of_three() -> Vec<u8> {
    changed(&THREE, 106, 0)
}

/// This many recordings with a triangle each, by turns training and test.
pub fn recordings(count: u8) -> Draft {
    let mut draft = Draft::default();
    (0..count).for_each(|k| draft.add(u32::from(k), k % 2, V));
    draft
}

fn good(draft: Draft, file: &[u8]) -> Worked {
    Worked { draft, room: file.len(), number: 0, file: file.to_vec() }
}

pub fn refused(number: u32, draft: Draft) -> Worked {
    Worked { draft, room: ROOM, number, file: Vec::new() }
}

/// The example with an edit.
fn spoiled(number: u32, edit: impl FnOnce(&mut Draft)) -> Worked {
    let mut draft = example();
    edit(&mut draft);
    refused(number, draft)
}

/// Every list of at most 80 entries, at most 1,000 numbers, and room for 4,096 bytes at most.
pub fn all() -> Vec<Worked> {
    let all = [written(), at_once(), at_an_entry(), sums(), of_no_recordings(), triangles(), at_the_end()];
    all.into_iter().flatten().chain(orders::all()).collect()
}

fn written() -> Vec<Worked> {
    let mut uneven = example();
    uneven.counts = vec![2, 1];
    uneven.numbers.extend(V);
    let of_sets = |sets: [u8; 2]| {
        let draft = Draft { sets: sets.to_vec(), ..example() };
        good(draft, &[&EXAMPLE[..58], &sets[..1], &EXAMPLE[59..70], &sets[1..], &EXAMPLE[71..]].concat())
    };
    let of_editions = |sets: [u8; 2], lasts: [u8; 2]| {
        let draft = Draft { sets: sets.to_vec(), lasts: lasts.to_vec(), ..example() };
        let entries = [&[sets[0], lasts[0]], &EXAMPLE[60..70], &[sets[1], lasts[1]]].concat();
        good(draft, &[&EXAMPLE[..58], &entries, &EXAMPLE[72..]].concat())
    };
    vec![
        good(Draft::default(), &SHORTEST),
        good(example(), &EXAMPLE),
        good(three(), &file_of_three()),
        good(recordings(64), &numbered_of(64, 2)),
        good(uneven, &UNEVEN),
        of_sets([1, 0]),
        of_sets([0, 0]),
        of_sets([1, 1]),
        of_editions([0, 1], [0, 1]),
        of_editions([1, 0], [1, 0]),
        of_editions([1, 1], [1, 0]),
        of_editions([1, 1], [0, 1]),
        of_editions([1, 1], [1, 1]),
        good(Draft { lasts: vec![0, 0, 1], ..three() }, &changed(&file_of_three(), 131, 1)),
        of_the_second_edition(12),
    ]
}

/// This many recordings, and all tests among them go by the second edition.
fn of_the_second_edition(count: u8) -> Worked {
    let mut draft = recordings(count);
    draft.lasts = draft.sets.clone();
    let mut file = numbered_of(count, 2);
    let (table, end) = (24 * usize::from(count), file.len() - 12);
    file[table..end].chunks_exact_mut(12).for_each(|entry| entry[11] = entry[10]);
    good(draft, &file)
}

/// The first recording has the example's two triangles, the second has V.
#[rustfmt::skip]
const UNEVEN: [u8; 108] = [
    0, 0, 0, 0, 0, 0, 0, 0, 4, 0, 0, 0, 0, 0, 0, 0, 0, 0, 0, 0, 4, 0, 0, 0,
    1, 0, 0, 0, 1, 0, 0, 0, 253, 255, 255, 255, 1, 0, 0, 0, 1, 0, 0, 0, 253, 255, 255, 255,
    0, 0, 0, 0, 0, 0, 0, 0, 4, 0, 0, 0, 0, 0, 0, 0, 0, 0, 0, 0, 4, 0, 0, 0,
    7, 0, 0, 0, 0, 0, 0, 0, 2, 0, 0, 0,
    9, 0, 0, 0, 48, 0, 0, 0, 1, 0, 1, 0,
    72, 0, 0, 0, 2, 0, 0, 0, 108, 0, 0, 0,
];

fn at_once() -> Vec<Worked> {
    let mut all = vec![
        spoiled(15, |d| d.ids.truncate(1)),
        spoiled(15, |d| d.counts.truncate(1)),
        spoiled(15, |d| d.sets.truncate(1)),
        spoiled(15, |d| d.lasts.truncate(1)),
        spoiled(15, |d| d.ids.push(11)),
        spoiled(15, |d| d.counts.push(1)),
        spoiled(15, |d| d.sets.push(0)),
        spoiled(15, |d| d.lasts.push(0)),
        spoiled(15, |d| d.ids.clear()),
        spoiled(15, |d| d.counts.clear()),
        spoiled(15, |d| d.sets.clear()),
        spoiled(15, |d| d.lasts.clear()),
        spoiled(15, |d| d.ids.extend([11, 12])),
        spoiled(15, |d| d.lasts.extend([0, 1])),
        // Two of the four agree, and so do the two others, with the triangles that the counts ask for.
        spoiled(15, |d| (d.ids, d.sets) = (vec![7], vec![0])),
        spoiled(15, |d| (d.ids, d.counts) = (vec![7], vec![2])),
        spoiled(15, |d| (d.counts, d.sets) = (vec![2], vec![0])),
        spoiled(15, |d| (d.sets, d.lasts) = (vec![1], vec![1])),
        spoiled(15, |d| (d.sets, d.lasts) = (vec![0, 1, 1], vec![0, 1, 1])),
        // Three of them agree, with those triangles.
        spoiled(15, |d| (d.ids, d.counts, d.sets) = (vec![7], vec![2], vec![1])),
        spoiled(15, |d| (d.counts, d.sets, d.lasts) = (vec![2], vec![1], vec![1])),
        // Together as long as equal ones.
        spoiled(15, |d| (d.ids, d.sets) = (vec![7], vec![0, 1, 2])),
        spoiled(15, |d| (d.ids, d.counts) = (vec![7], vec![1, 1, 1])),
        spoiled(15, |d| (d.counts, d.sets) = (vec![2], vec![0, 1, 2])),
        spoiled(15, |d| (d.counts, d.sets) = (vec![1, 1, 1], vec![0])),
        spoiled(15, |d| (d.sets, d.lasts) = (vec![0, 1, 1], vec![0])),
        spoiled(15, |d| (d.ids, d.lasts) = (vec![7], vec![0, 0, 0])),
        refused(15, Draft { ids: vec![7], ..Draft::default() }),
        refused(15, Draft { counts: vec![1], ..Draft::default() }),
        refused(15, Draft { sets: vec![0], ..Draft::default() }),
        refused(15, Draft { lasts: vec![0], ..Draft::default() }),
    ];
    for numbers in [7, 8, 9, 10, 11, 13, 14, 15, 16, 17] {
        all.push(spoiled(15, |d| d.numbers.resize(numbers, 1)));
    }
    all
}

fn at_an_entry() -> Vec<Worked> {
    let mut all = vec![
        spoiled(14, |d| d.counts[0] = 0),
        spoiled(14, |d| d.counts[1] = 0),
        // The sum is right nevertheless.
        spoiled(14, |d| d.counts = vec![0, 2]),
        spoiled(14, |d| d.counts = vec![2, 0]),
        spoiled(16, |d| d.ids[1] = 7),
        refused(16, Draft { ids: vec![0, 4_294_967_295, 0], ..three() }),
        refused(16, Draft { ids: vec![5, 4_294_967_295, 4_294_967_295], ..three() }),
        refused(16, Draft { ids: vec![1, 1, 1], ..three() }),
    ];
    for set in [2, 3, 4, 127, 128, 129, 130, 255] {
        all.push(spoiled(14, |d| d.sets[0] = set));
        all.push(spoiled(14, |d| d.sets[1] = set));
    }
    all.push(spoiled(14, |d| d.sets = vec![2, 2]));
    for last in [2, 3, 4, 127, 128, 129, 255] {
        all.push(spoiled(14, |d| d.lasts[0] = last));
        all.push(spoiled(14, |d| d.lasts[1] = last));
    }
    // 1 where there is no test: the first entry is training, and so is the second one in its turn.
    all.push(spoiled(14, |d| d.lasts = vec![1, 0]));
    all.push(spoiled(14, |d| d.lasts = vec![1, 1]));
    all.push(spoiled(14, |d| (d.sets, d.lasts) = (vec![1, 0], vec![0, 1])));
    all.push(spoiled(14, |d| (d.sets, d.lasts) = (vec![1, 0], vec![1, 1])));
    all.push(spoiled(14, |d| (d.sets, d.lasts) = (vec![1, 2], vec![1, 1])));
    all.push(spoiled(14, |d| (d.sets, d.lasts) = (vec![3, 1], vec![1, 1])));
    all.push(spoiled(14, |d| (d.counts[1], d.lasts[1]) = (0, 1)));
    all.push(spoiled(14, |d| (d.counts[0], d.lasts[0]) = (0, 2)));
    all.extend((0..3).map(|entry| {
        let mut draft = three();
        draft.sets[entry] = 2;
        refused(14, draft)
    }));
    all
}

/// The example has two triangles.
fn sums() -> Vec<Worked> {
    let of = |counts: [u32; 2]| spoiled(15, |d| d.counts = counts.to_vec());
    vec![
        of([1, 2]),
        of([2, 1]),
        spoiled(15, |d| d.numbers.truncate(6)),
        spoiled(15, |d| d.numbers.clear()),
        spoiled(15, |d| d.numbers.extend(V)),
        of([1, 4_294_967_295]),
        of([4_294_967_295, 1]),
        of([4_294_967_295, 4_294_967_295]),
        // 2^32 + 2
        of([4_294_967_295, 3]),
        of([2_147_483_648, 2_147_483_650]),
        // 2 + 2^31, of which six times is twelve to 32 bits; 2 + 2^30, of which twelve times is 24; 2 + 2^29,
        // of which 24 times is 48
        of([1, 2_147_483_649]),
        of([1, 1_073_741_825]),
        of([536_870_913, 1]),
        // 2 + 2^16 and 2 + 2^8
        of([1, 65_537]),
        of([257, 1]),
        refused(15, Draft { counts: vec![4_294_967_295, 4_294_967_295, 6], ..three() }),
    ]
}

fn of_no_recordings() -> Vec<Worked> {
    let with = |numbers: &[i32]| refused(15, Draft { numbers: numbers.to_vec(), ..Draft::default() });
    vec![
        with(&V),
        with(&[0; 6]),
        with(&[OVER, 0, 4, 0, 0, 4]),
        with(&[0; 5]),
        with(&[0]),
        with(&[V, V].concat()),
    ]
}

fn triangles() -> Vec<Worked> {
    let second = |number: u32, triangle: Triangle| spoiled(number, |d| d.set_triangle(1, triangle));
    let mut all = vec![
        second(17, [i32::MAX, 0, 4, 0, 0, 4]),
        second(17, [0, i32::MIN, 4, 0, 0, 4]),
        second(17, [i32::MIN, i32::MIN, i32::MAX, i32::MAX, 0, 1]),
        second(17, [16_777_216, 0, 4, 0, 0, 4]),
        second(18, [0; 6]),
        second(18, [3, 5, 3, 5, 8, 1]),
        second(18, [3, 5, 8, 1, 3, 5]),
        second(18, [8, 1, 3, 5, 3, 5]),
        second(18, [0, 0, 4, 0, 8, 0]),
        second(18, [0, 0, 0, 4, 0, -4]),
        second(18, [1, 2, 3, 6, -1, -2]),
        second(18, [-1_000_000, -1_000_000, 1_000_000, 1_000_000, 0, 0]),
        second(18, [-1_000_000, 1_000_000, 0, 0, 1_000_000, -1_000_000]),
        // Out of range and of no area
        second(17, [OVER, OVER, OVER, OVER, OVER, OVER]),
        second(17, [0, 0, 4, 0, OVER, 0]),
        spoiled(18, |d| d.set_triangle(0, [0, 0, 4, 0, 8, 0])),
    ];
    for place in 0..2 * NUMBERS {
        all.push(spoiled(17, |d| d.numbers[place] = if place % 2 == 0 { OVER } else { UNDER }));
        all.push(spoiled(17, |d| d.numbers[place] = if place % 2 == 0 { UNDER } else { OVER }));
    }
    all
}

/// 13, and 19 for the room.
fn at_the_end() -> Vec<Worked> {
    let short = |room: usize, draft: Draft| Worked { room, ..refused(19, draft) };
    vec![
        refused(13, recordings(65)),
        Worked { room: 4_096, ..refused(13, recordings(66)) },
        short(2_315, recordings(64)),
        short(0, recordings(64)),
        short(0, Draft::default()),
        short(11, Draft::default()),
        short(83, example()),
        short(72, example()),
        short(48, example()),
        short(0, example()),
        short(143, three()),
    ]
}

/// The example with every set in either entry, every last byte, and every set beside a last byte of 1; and
/// every number at the ends of the range and of its type and beside them.
pub fn in_turn() -> Vec<Draft> {
    const ENDS: [i32; 4] = [1_000_000, -1_000_000, i32::MAX, i32::MIN];
    let mut all = Vec::new();
    let mut add = |edit: &dyn Fn(&mut Draft)| {
        let mut draft = example();
        edit(&mut draft);
        all.push(draft);
    };
    for entry in 0..2 {
        (0..=255).for_each(|set| add(&|d| d.sets[entry] = set));
        (0..=255).for_each(|last| add(&|d| d.lasts[entry] = last));
        (0..=255).for_each(|set| add(&|d| (d.sets[entry], d.lasts[entry]) = (set, 1)));
    }
    for place in 0..2 * NUMBERS {
        for end in ENDS {
            (-1..=1).for_each(|more| add(&|d| d.numbers[place] = end.wrapping_add(more)));
        }
    }
    all
}
