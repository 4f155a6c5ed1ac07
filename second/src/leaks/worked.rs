//! The files and lists that are worked by hand.

use super::{leaks, own_area, Counts, List, Rule};
use crate::boxes::near_pairs;
use crate::decision::by_the_triangle_rules;
use crate::files::draft::Triangle;
use crate::files::editions::with_editions;
use crate::files::worked::{all as all_files, EXAMPLE, SHORTEST};
use crate::footprint::stored::{HELD_BACK, TEST, TRAINING};
use crate::lists::worked::{all, file_of, EXAMPLE_LIST, NOTHING, U_OF_D, V};

/// What the room has in every byte before the call.
const UNTOUCHED: u8 = b'~';

/// Nothing is written but the whole list.
fn expect_list(file: &[u8], list: &str, tested: u32, room_length: usize) {
    let mut room = vec![UNTOUCHED; room_length];
    let answer = leaks(file, &mut room);
    let written = if room_length < list.len() { 0 } else { list.len() };
    if written == 0 {
        assert_eq!(answer, List { number: 7, ..List::default() });
    } else {
        let mut closing = list.lines().rev();
        let mut number_behind = |words: &str| {
            let number = closing.next().and_then(|line| line.strip_prefix(words)?.parse().ok());
            number.expect("the closing lines end in numbers")
        };
        let formerly_held_back = number_behind("formerly held back ");
        let touching = number_behind("touching ");
        let leaks = closing.count() as u32 - 1;
        let (number, place, length) = (0, 0, list.len());
        assert_eq!(answer, List { number, place, length, leaks, touching, tested, formerly_held_back });
    }
    assert_eq!(String::from_utf8_lossy(&room[..written]), &list[..written]);
    assert!(room[written..].iter().all(|byte| *byte == UNTOUCHED));
}

#[test]
fn lists() {
    for worked in all() {
        let length = worked.list.len();
        for room_length in [0, 1, 8, 19, 39, 40, 41] {
            expect_list(&worked.file, &worked.list, worked.tested, room_length);
        }
        for room_length in [length - 21, length - 2, length - 1, length, length + 1, length + 100] {
            expect_list(&worked.file, &worked.list, worked.tested, room_length);
        }
    }
}

#[test]
fn every_room_for_the_example() {
    assert_eq!(file_of(&[(7, TRAINING, &[V]), (9, TEST, &[U_OF_D])]), EXAMPLE);
    assert_eq!(EXAMPLE_LIST.len(), 63);
    (0..70).for_each(|length| expect_list(&EXAMPLE, EXAMPLE_LIST, 1, length));
}

/// Where nothing overlaps or touches and no recording is held back.
#[test]
fn the_shortest_list() {
    assert_eq!(NOTHING.len(), 40);
    (0..50).for_each(|length| expect_list(&SHORTEST, NOTHING, 0, length));
}

/// As many lines as there can be, each with two ids of ten digits.
#[test]
fn all_lines() {
    all_lines_of(&[TRAINING], 0);
    all_lines_of(&[HELD_BACK], 32);
    all_lines_of(&[TRAINING, HELD_BACK], 16);
    all_lines_of(&[HELD_BACK, TRAINING, TRAINING], 11);
}

/// What is training by turns is of these sets in turn.
fn all_lines_of(sets: &[u8], held_back: usize) {
    let set = |k: usize| if k % 2 == 0 { TEST } else { sets[k / 2 % sets.len()] };
    let file = file_of(&(0..64).map(|k| (u32::MAX - k as u32, set(k), &[V][..])).collect::<Vec<_>>());
    let mut list = "leaks 1024\n".to_string();
    for test in 0..32 {
        for training in 0..32 {
            let ids = [u32::MAX - 2 * test, u32::MAX - 1 - 2 * training];
            list += &format!("test {} train {} pairs 1\n", ids[0], ids[1]);
        }
    }
    list += &format!("touching 0\nformerly held back {held_back}\n");
    assert_eq!(list.len(), 11 + 1024 * 41 + 11 + 20 + held_back.to_string().len());
    [list.len() - 1, list.len(), 65_536].iter().for_each(|length| expect_list(&file, &list, 1024, *length));
}

/// As many recordings as there can be, and no test or one among them.
#[test]
fn all_held_back() {
    let mut recordings: Vec<(u32, u8, &[Triangle])> = (0..64).map(|id| (id, HELD_BACK, &[V][..])).collect();
    let list = "leaks 0\ntouching 0\nformerly held back 64\n";
    (0..60).for_each(|length| expect_list(&file_of(&recordings), list, 0, length));
    for place in [0, 1, 31, 62, 63] {
        recordings[place].1 = TEST;
        let others = (0..64).filter(|id| *id != place);
        let lines: String = others.map(|id| format!("test {place} train {id} pairs 1\n")).collect();
        let list = format!("leaks 63\n{lines}touching 0\nformerly held back 63\n");
        for length in [list.len() - 21, list.len() - 1, list.len(), 65_536] {
            expect_list(&file_of(&recordings), &list, 63, length);
        }
        recordings[place].1 = HELD_BACK;
    }
}

/// Whatever the room: it is not looked at, nor written to.
#[test]
fn a_refused_file_answers_for_itself() {
    for worked in all_files().iter().filter(|worked| worked.number != 0) {
        for length in [0, 39, 40, 100] {
            let mut room = vec![UNTOUCHED; length];
            let expected = List { number: worked.number, place: worked.place, ..List::default() };
            assert_eq!(leaks(&worked.file, &mut room), expected);
            assert!(room.iter().all(|byte| *byte == UNTOUCHED));
        }
    }
}

/// It counts in N, and keeps two recordings from being counted as touching. No file has such a pair.
#[test]
fn a_refused_pair_overlaps() {
    let touching = [0.0, 0.0, 4.0, 0.0, 0.0, -4.0, 0.0, 0.0, 4.0, 0.0, 0.0, 4.0];
    let counts = Counts::default().with(by_the_triangle_rules(&touching));
    assert_eq!(counts, Counts { tested: 1, touching: 1, ..Counts::default() });
    assert!(counts.only_touch() && !counts.leak(Rule::Any));
    // Refusals 2, 3, 4 and 5.
    for (place, value) in [(7, f64::NAN), (11, 0.0), (8, 1e308), (5, 0.0)] {
        let mut values = touching;
        values[place] = value;
        let both = counts.with(by_the_triangle_rules(&values));
        assert_eq!(both, Counts { tested: 2, overlapping: 1, touching: 1, refused: 1, area: 0.0 });
        assert!(both.leak(Rule::Any) && !both.only_touch());
    }
}

/// By the second edition it is a leak whatever the own area is, and whatever the others come to.
#[test]
fn a_refused_pair_is_a_leak() {
    let flat = [0.0, 0.0, 4.0, 0.0, 8.0, 0.0, 0.0, 0.0, 4.0, 0.0, 0.0, 4.0];
    let of_d = [1.0, 1.0, -3.0, 1.0, 1.0, -3.0, 0.0, 0.0, 4.0, 0.0, 0.0, 4.0];
    let counts = Counts::default().with(by_the_triangle_rules(&of_d));
    assert_eq!(counts, Counts { tested: 1, overlapping: 1, area: 1.0, ..Counts::default() });
    let both = counts.with(by_the_triangle_rules(&flat));
    assert_eq!(both, Counts { tested: 2, overlapping: 2, refused: 1, ..counts });
    for (own_area, leak) in [(99.0, true), (100.0, false), (1e300, false), (f64::INFINITY, false)] {
        assert_eq!(counts.leak(Rule::MoreThanASliver(own_area)), leak);
        assert!(both.leak(Rule::MoreThanASliver(own_area)));
    }
}

/// Flat, so that the triangle rules would refuse it, but with boxes that share no point.
#[test]
fn a_far_pair_is_apart() {
    let flat_and_far = [0.0, 0.0, 4.0, 4.0, 8.0, 8.0, 9.0, 9.0, 10.0, 10.0, 11.0, 11.0];
    let counts = Counts { tested: 3, overlapping: 2, touching: 1, refused: 0, area: 5.0 };
    assert_eq!(counts.with(by_the_triangle_rules(&flat_and_far)), counts);
}

/// The first 2,252 crosses come to more than 2^53, and to a multiple of four. The others leave 1 when they are
/// divided by four: each of them loses that one when it is added, so that of 100 of them 100 is lost.
#[test]
fn an_own_area_that_is_rounded() {
    const END: i32 = 1_000_000;
    // A cross of 4 · 10^12 − `short`.
    let large = |short: i32| [-END, -END, END, 1 - END, short - END, END];
    // Within all of these, with a cross of 4 · 10^10 − 1: 2,352 times its area, times 100, is 4,703,999,999,882,400.
    let within = [1_000 - END, 1_000 - END, 201_000 - END, 1_001 - END, 1_001 - END, 201_000 - END];
    // In all the crosses are short of 2,352 times the largest by 2,251 · 104 + `first` + 300. With a first of 756
    // half of them is 4,703,999,999,882,420, above the limit; and 50 less with what is lost, below it.
    for (first, own, leak) in [
        (756, 4_703_999_999_882_370.0, true),
        (696, 4_703_999_999_882_400.0, false),
        (700, 4_703_999_999_882_398.0, true),
    ] {
        let mut test = vec![large(104); 2_252];
        test[0] = large(first);
        test.extend([large(3); 100]);
        let file = file_of(&[(9, TEST, &test), (7, TRAINING, &[within])]);
        assert_eq!(own_area(&file[..2_352 * 24]), own);
        let [none, one] = [
            "leaks 0\ntouching 0\nformerly held back 0\n",
            "leaks 1\ntest 9 train 7 pairs 2352\ntouching 0\nformerly held back 0\n",
        ];
        expect_list(&file, one, 2_352, 100);
        expect_list(&with_editions(&file, |_| 1), if leak { one } else { none }, 2_352, 100);
    }
}

/// Counted once more, in whole numbers.
#[test]
fn tested_is_the_number_of_near_pairs() {
    for worked in all() {
        assert_eq!(worked.tested as usize, near_pairs(&worked.file));
    }
}

/// The list that is shipped with the night of the examples is this program's.
#[test]
fn the_night() {
    let file = include_bytes!("../../../examples/night.footprint");
    expect_list(file, include_str!("../../../examples/night.expected"), near_pairs(file) as u32, 65_536);
}
