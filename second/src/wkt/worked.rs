//! The texts that are worked by hand.

use super::parser::triangles_in;
use super::{length_of, wkt, MOST_TEXT};
use crate::files::worked::{all as all_files, EXAMPLE, SHORTEST, THREE};
use crate::footprint::{part_with, MOST_BYTES};
use crate::lists::worked::file_of;
use crate::texts::numbers::{beside, KNOWN};
use crate::texts::worked::{all, shown, SHOWN, SHOWN_TEXT};
use crate::texts::{every, longest};
use crate::writer::Written;

/// What the room has before the call: every byte told from the next, and no byte twice the same in two
/// rooms that start differently.
fn untouched(length: usize, start: u8) -> Vec<u8> {
    (0..length).map(|k| start.wrapping_add((k % 251) as u8)).collect()
}

/// Nothing is written but the whole text.
fn expect(file: &[u8], id: u32, room_length: usize, answer: Written, text: &str) {
    for start in [0, 100, 201] {
        let before = untouched(room_length, start);
        let mut room = before.clone();
        assert_eq!(wkt(file, id, &mut room), answer, "id {id} in {room_length} bytes: {file:?}");
        assert_eq!(String::from_utf8_lossy(&room[..text.len()]), text);
        assert_eq!(room[text.len()..], before[text.len()..]);
    }
}

fn expect_text(file: &[u8], id: u32, room_length: usize, text: &str) {
    expect(file, id, room_length, Written { number: 0, place: 0, length: text.len() }, text);
}

fn expect_refusal(file: &[u8], id: u32, room_length: usize, number: u32, place: u32) {
    expect(file, id, room_length, Written { number, place, length: 0 }, "");
}

#[test]
fn texts() {
    for worked in all() {
        expect(&worked.file, worked.id, worked.room, worked.answer(), &worked.text);
    }
}

/// The text with which the rules show what they mean, 76 bytes of it.
#[test]
fn the_one_that_is_shown() {
    let text = "GEOMETRYCOLLECTION (POLYGON ((0.00 0.00, 4.00 0.00, 0.00 -0.05, 0.00 0.00)))";
    assert_eq!((SHOWN_TEXT, text.len()), (text, 76));
    (0..76).for_each(|length| expect_refusal(&shown(), 7, length, 20, 0));
    (76..120).for_each(|length| expect_text(&shown(), 7, length, text));
    expect_text(&shown(), 7, 300_000, text);
}

#[test]
fn rooms_around_every_text() {
    for worked in all().iter().filter(|worked| worked.number == 0) {
        let length = worked.text.len();
        (length - 3..length).for_each(|room| expect_refusal(&worked.file, worked.id, room, 20, 0));
        (length..=length + 3).for_each(|room| expect_text(&worked.file, worked.id, room, &worked.text));
        [0, 1, 20, 21].iter().for_each(|room| expect_refusal(&worked.file, worked.id, *room, 20, 0));
    }
}

/// Each known number by itself in each place, beside numbers of one digit.
#[test]
fn numbers_alone() {
    for (number, text) in KNOWN {
        for place in 0..6 {
            let file = file_of(&[(7, 0, &[beside(number, place)])]);
            let mut room = [46; 120];
            let written = wkt(&file, 7, &mut room);
            let shown = String::from_utf8_lossy(&room[..written.length]).into_owned();
            let words: Vec<&str> = shown["GEOMETRYCOLLECTION (POLYGON ((".len()..shown.len() - 3]
                .split([' ', ','])
                .filter(|word| !word.is_empty())
                .collect();
            assert_eq!((words.len(), words[place]), (8, text), "{shown}");
            assert_eq!((words[6], words[7]), (words[0], words[1]));
        }
    }
}

/// The file's own refusal with its place, then 21, then 20, whatever else is wrong.
#[test]
fn order_of_refusals() {
    for bad in all_files().iter().filter(|worked| worked.number != 0) {
        for id in [7, 9, 0, 5, 8, u32::MAX] {
            for room in [0, 1, 19, 76, 400] {
                expect_refusal(&bad.file, id, room, bad.number, bad.place);
            }
        }
    }
    for room in [0, 1, 19, 20, 74, 75, 76, 400, 300_000] {
        for (file, id) in [(&SHORTEST[..], 0), (&SHORTEST, 12), (&EXAMPLE, 8), (&EXAMPLE, 0), (&THREE, 1)] {
            expect_refusal(file, id, room, 21, 0);
        }
    }
    expect_refusal(&EXAMPLE, 7, 0, 20, 0);
    expect_refusal(&vec![0; MOST_BYTES + 1], 0, 0, 11, 0);
    expect_refusal(&[], 0, 0, 11, 0);
}

#[test]
fn the_longest() {
    let (file, text) = (longest::file(), longest::text());
    assert_eq!((file.len(), text.len(), MOST_TEXT), (65_520, 256_545, 256_545));
    let part = part_with(&file, longest::ID).expect("a good file").expect("the recording is there");
    assert_eq!(length_of(part), 256_545);
    [0, 65_536, 256_544].iter().for_each(|room| expect_refusal(&file, longest::ID, *room, 20, 0));
    [256_545, 256_546, 400_000].iter().for_each(|room| expect_text(&file, longest::ID, *room, &text));
    expect_refusal(&file, longest::ID - 1, 400_000, 21, 0);
}

/// What is measured is what is written, and what is written is read as what is stored, with some hundred
/// thousands of numbers.
#[test]
fn measured_and_read_back() {
    for (file, id) in (0..every::FILES).step_by(60).map(every::file) {
        let mut room = vec![46; MOST_TEXT];
        let length = wkt(&file, id, &mut room).length;
        let text = std::str::from_utf8(&room[..length]).expect("it is text");
        let triangles = triangles_in(text).expect("it is a collection of triangles");
        let stored: Vec<u8> = triangles.concat().iter().flat_map(|number| number.to_le_bytes()).collect();
        assert_eq!(part_with(&file, id), Ok(Some(&stored[..])));
    }
    assert_eq!(triangles_in(SHOWN_TEXT), Some(vec![SHOWN]));
}
