//! The files that are worked by hand.

use super::{coordinate, judge, part, recording, Entry, Verdict};
use crate::files::worked::{all, changed, EXAMPLE, SHORTEST, THREE};

#[test]
fn verdicts() {
    for (k, worked) in all().iter().enumerate() {
        let expected = Verdict { number: worked.number, place: worked.place };
        assert_eq!(judge(&worked.file), expected, "file {k}: {:?}", worked.file);
    }
}

/// Nothing but the number and the place of the file, whatever is asked.
#[test]
fn a_refused_file_answers_for_itself() {
    for worked in all().iter().filter(|worked| worked.number != 0) {
        let expected = Entry { number: worked.number, place: worked.place, ..Entry::default() };
        for k in [0, 1, 2, 64, usize::MAX] {
            assert_eq!(recording(&worked.file, k), expected);
            assert!(part(&worked.file, k).is_empty());
        }
    }
}

#[test]
fn recordings_of_the_example() {
    let seven = Entry { number: 0, place: 0, id: 7, first: 0, count: 1, set: 0, last: 0 };
    let nine = Entry { number: 0, place: 0, id: 9, first: 24, count: 1, set: 1, last: 0 };
    assert_eq!((recording(&EXAMPLE, 0), part(&EXAMPLE, 0)), (seven, &EXAMPLE[..24]));
    assert_eq!((recording(&EXAMPLE, 1), part(&EXAMPLE, 1)), (nine, &EXAMPLE[24..48]));
    let values: Vec<f64> = (0..6).map(|index| coordinate(part(&EXAMPLE, 1), index)).collect();
    assert_eq!(values, [1.0, 1.0, -3.0, 1.0, 1.0, -3.0]);
}

#[test]
fn recordings_of_three() {
    let second = Entry { number: 0, place: 0, id: u32::MAX, first: 24, count: 2, set: 0, last: 0 };
    assert_eq!((recording(&THREE, 1), part(&THREE, 1)), (second, &THREE[24..72]));
    assert_eq!(coordinate(part(&THREE, 1), 2), -1_000_000.0);
    assert_eq!(coordinate(part(&THREE, 1), 11), 65_536.0);
    assert_eq!(recording(&THREE, 2).set, 1);
}

/// What is asked of a test of the second edition, and every last byte beside every set.
#[test]
fn editions() {
    let nine = Entry { number: 0, place: 0, id: 9, first: 24, count: 1, set: 1, last: 1 };
    assert_eq!(recording(&changed(&EXAMPLE, 71, 1), 1), nine);
    for (set, last) in (0..=255).flat_map(|last| [0, 1, 2, 3].map(|set| (set, last))) {
        let file = changed(&changed(&EXAMPLE, 70, set), 71, last);
        let good = last == 0 && set < 3 || last == 1 && set == 1;
        let expected = if good { Verdict::default() } else { Verdict { number: 14, place: 60 } };
        assert_eq!(judge(&file), expected, "set {set}, last byte {last}");
    }
}

#[test]
fn no_such_recording() {
    let ten = Entry { number: 10, ..Entry::default() };
    for (file, count) in [(&SHORTEST[..], 0), (&EXAMPLE[..], 2), (&THREE[..], 3)] {
        for k in [count, count + 1, (1u64 << 32) as usize, usize::MAX] {
            assert_eq!(recording(file, k), ten);
            assert!(part(file, k).is_empty());
        }
    }
}

/// 65,536 bytes are not too many, but twelve do not divide what is then left.
#[test]
fn longest_lengths() {
    for (length, number, place) in [(65_535, 15, 65_523), (65_536, 15, 65_524), (65_537, 11, 0)] {
        let mut file = vec![0; length];
        file[length - 12..length - 8].copy_from_slice(&(length as u32 - 12).to_le_bytes());
        file[length - 4..].copy_from_slice(&(length as u32).to_le_bytes());
        assert_eq!(judge(&file), Verdict { number, place });
        assert_eq!(judge(&vec![0; length]).number, if number == 11 { 11 } else { 12 });
    }
}
