//! The drafts that are worked by hand.

use super::{write, Written};
use crate::drafts::draft::Draft;
use crate::drafts::worked::{all, example, file_of_three, recordings, three, V};
use crate::files::worked::{changed, EXAMPLE, SHORTEST, THREE};
use crate::footprint::{judge, part, recording, Entry, Verdict};

/// What the room has before the call: every byte told from the next, and no byte twice the same in two
/// rooms that start differently.
fn untouched(length: usize, start: u8) -> Vec<u8> {
    (0..length).map(|k| start.wrapping_add((k % 251) as u8)).collect()
}

/// Nothing is written but the whole file.
fn expect(draft: &Draft, room_length: usize, number: u32, file: &[u8]) {
    for start in [0, 100, 201] {
        let before = untouched(room_length, start);
        let mut room = before.clone();
        let written = write(draft.handed(), &mut room);
        assert_eq!(written, Written { number, place: 0, length: file.len() }, "{draft:?}");
        assert_eq!(&room[..file.len()], file);
        assert_eq!(room[file.len()..], before[file.len()..]);
    }
}

#[test]
fn drafts() {
    for worked in all() {
        expect(&worked.draft, worked.room, worked.number, &worked.file);
    }
}

#[test]
fn rooms() {
    let three_written = file_of_three();
    for (draft, file) in
        [(Draft::default(), &SHORTEST[..]), (example(), &EXAMPLE), (three(), &three_written[..])]
    {
        (0..file.len()).for_each(|length| expect(&draft, length, 19, &[]));
        (0..30).for_each(|more| expect(&draft, file.len() + more, 0, file));
        expect(&draft, 65_536, 0, file);
        expect(&draft, 100_000, 0, file);
    }
}

/// Whatever the room: it is not looked at before all else, nor written to.
#[test]
fn a_refused_draft_answers_whatever_the_room() {
    for worked in all().iter().filter(|worked| ![0, 19].contains(&worked.number)) {
        for length in [0, 1, 12, worked.draft.length(), 70_000] {
            expect(&worked.draft, length, worked.number, &[]);
        }
    }
}

/// What is written is accepted by the reader, and it reads the same recordings.
#[test]
fn reading_what_is_written() {
    for worked in all().iter().filter(|worked| worked.number == 0) {
        let (draft, file) = (&worked.draft, &worked.file);
        assert_eq!(judge(file), Verdict::default());
        let mut first = 0;
        for k in 0..draft.ids.len() {
            let (id, count) = (draft.ids[k], draft.counts[k]);
            let [set, last] = [draft.sets[k], draft.lasts[k]].map(u32::from);
            let expected = Entry { number: 0, place: 0, id, first, count, set, last };
            assert_eq!(recording(file, k), expected);
            let numbers = &draft.numbers[first as usize / 4..][..6 * count as usize];
            let bytes: Vec<u8> = numbers.iter().flat_map(|number| number.to_le_bytes()).collect();
            assert_eq!(part(file, k), bytes);
            first += 24 * count;
        }
    }
}

/// Of one triangle again and again, shared out so.
fn filled(counts: &[u32]) -> Draft {
    let triangles: u32 = counts.iter().sum();
    Draft {
        ids: (0..counts.len() as u32).collect(),
        counts: counts.to_vec(),
        sets: vec![1; counts.len()],
        lasts: vec![0; counts.len()],
        numbers: V.repeat(triangles as usize),
    }
}

/// The count takes two bytes, and so does the place of the second recording's first triangle.
#[test]
fn a_count_of_two_bytes() {
    let mut file = EXAMPLE[..24].repeat(301);
    file.extend([0, 0, 0, 0, 0, 0, 0, 0, 44, 1, 1, 0]); // 300 triangles
    file.extend([1, 0, 0, 0, 32, 28, 0, 0, 1, 0, 1, 0]); // at 7,200
    file.extend([56, 28, 0, 0, 2, 0, 0, 0, 92, 28, 0, 0]); // 7,224, 2 and 7,260
    expect(&filled(&[300, 1]), 7_260, 0, &file);
    expect(&filled(&[300, 1]), 7_259, 19, &[]);
}

/// 65,532 bytes are written, and with twelve more it is too long, whatever the room.
#[test]
fn the_longest() {
    for (counts, number) in [
        (vec![2_729], 0),
        (vec![2_728, 1], 0),
        (vec![2_730], 19),
        (vec![1, 2_727, 1], 19),
        ([vec![1; 63], vec![2_635]].concat(), 0),
        ([vec![1; 63], vec![2_636]].concat(), 19),
        ([vec![1; 62], vec![2_637]].concat(), 19),
        ([vec![1; 62], vec![2_636]].concat(), 0),
    ] {
        let draft = filled(&counts);
        for length in [draft.length() - 1, draft.length(), 65_536, 70_000] {
            let mut room = untouched(length, 7);
            let written = write(draft.handed(), &mut room);
            let number = if length < draft.length() { 19 } else { number };
            assert_eq!(written.number, number, "{counts:?} in {length} bytes");
            if number == 0 {
                assert_eq!(written.length, draft.length());
                assert_eq!(judge(&room[..written.length]), Verdict::default());
            } else {
                assert_eq!(
                    (written, room),
                    (Written { number: 19, place: 0, length: 0 }, untouched(length, 7))
                );
            }
        }
    }
    let lengths = [&[2_729][..], &[2_728, 1], &[2_730], &[1, 2_727, 1]].map(|counts| filled(counts).length());
    assert_eq!(lengths, [65_520, 65_532, 65_544, 65_544]);
}

/// Counts that no file can hold, but their triangles are all there.
#[test]
fn counts_past_16_bits() {
    for count in [65_535, 65_536, 65_537] {
        let mut draft = filled(&[count]);
        expect(&draft, 12, 19, &[]);
        expect(&draft, draft.length(), 19, &[]);
        draft.counts[0] += 1;
        expect(&draft, 65_536, 15, &[]);
        draft.counts[0] -= 1;
        draft.set_triangle(count as usize - 1, [0, 0, 1, 1, 2, 2]);
        expect(&draft, 65_536, 18, &[]);
        draft.numbers[6 * count as usize - 1] = -1_000_001;
        expect(&draft, 65_536, 17, &[]);
    }
    let mut many = recordings(65);
    many.counts[64] = 65_536;
    many.numbers.extend(V.repeat(65_535));
    expect(&many, 65_536, 13, &[]);
}

/// All of them are judged before it is said that they are too many.
#[test]
fn entries_beyond_the_64th() {
    let spoiled = |edit: fn(&mut Draft)| {
        let mut draft = recordings(200);
        edit(&mut draft);
        draft
    };
    expect(&recordings(200), 10_000, 13, &[]);
    expect(&spoiled(|d| d.ids[199] = 0), 10_000, 16, &[]);
    expect(&spoiled(|d| d.ids[199] = 100), 10_000, 16, &[]);
    expect(&spoiled(|d| d.ids[150] = 149), 10_000, 16, &[]);
    expect(&spoiled(|d| d.sets[199] = 2), 10_000, 14, &[]);
    expect(&spoiled(|d| d.sets[199] = 3), 10_000, 14, &[]);
    expect(&spoiled(|d| (d.ids[100], d.sets[100]) = (0, 2)), 10_000, 14, &[]);
    expect(&spoiled(|d| (d.ids[100], d.sets[99]) = (0, 2)), 10_000, 14, &[]);
    expect(&spoiled(|d| (d.ids[100], d.sets[101]) = (0, 2)), 10_000, 16, &[]);
    expect(&spoiled(|d| d.lasts[199] = 1), 10_000, 13, &[]);
    expect(&spoiled(|d| d.lasts[198] = 1), 10_000, 14, &[]);
    expect(&spoiled(|d| d.lasts[199] = 2), 10_000, 14, &[]);
    expect(&spoiled(|d| (d.ids[100], d.lasts[100]) = (0, 1)), 10_000, 14, &[]);
    expect(&spoiled(|d| (d.ids[101], d.lasts[101]) = (0, 1)), 10_000, 16, &[]);
    expect(&spoiled(|d| (d.ids[101], d.lasts[100]) = (0, 1)), 10_000, 14, &[]);
    expect(&spoiled(|d| (d.ids[101], d.lasts[102]) = (0, 1)), 10_000, 16, &[]);
    expect(&spoiled(|d| d.counts[64] = 0), 10_000, 14, &[]);
    expect(&spoiled(|d| (d.ids[100], d.counts[101]) = (0, 0)), 10_000, 16, &[]);
    expect(&spoiled(|d| (d.ids[101], d.counts[100]) = (0, 0)), 10_000, 14, &[]);
    expect(&spoiled(|d| d.counts[199] = 2), 10_000, 15, &[]);
    expect(&spoiled(|d| d.numbers[1_199] = 1_000_001), 10_000, 17, &[]);
    expect(&spoiled(|d| d.numbers[1_199] = 0), 10_000, 18, &[]);
}

/// Of many recordings with nothing but the one byte between them.
#[test]
fn sets() {
    for set in 0..=255 {
        let mut draft = example();
        draft.sets[1] = set;
        if set > 1 {
            expect(&draft, 84, 14, &[]);
        } else {
            expect(&draft, 84, 0, &[&EXAMPLE[..70], &[set], &EXAMPLE[71..]].concat());
        }
    }
}

/// The test may have 0 and 1, the training recording has 0, and nothing else is taken.
#[test]
fn last_bytes() {
    for last in 0..=255 {
        for (entry, most) in [(0, 0), (1, 1)] {
            let mut draft = example();
            draft.lasts[entry] = last;
            if last > most {
                expect(&draft, 84, 14, &[]);
            } else {
                expect(&draft, 84, 0, &changed(&EXAMPLE, 59 + 12 * entry, last));
            }
        }
    }
}

/// `THREE` is accepted, and its first recording is handed back with set 2: so it is not written again.
#[test]
fn an_old_file() {
    let sets: Vec<u8> = (0..3).map(|k| recording(&THREE, k).set as u8).collect();
    assert_eq!((judge(&THREE), &sets[..]), (Verdict::default(), &[2, 0, 1][..]));
    let old = Draft { sets, ..three() };
    [0, 143, 144, 65_536].into_iter().for_each(|length| expect(&old, length, 14, &[]));
}
