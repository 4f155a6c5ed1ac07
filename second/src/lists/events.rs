//! What a wrong program could do unseen unless a list, or a room lent for it, brings it about.

pub mod boxes;
pub mod editions;
pub mod held_back;

use super::coverage::Coverage;
use super::rooms::{before_closing_lines, before_last_line, Room};
use crate::footprint::stored::{HELD_BACK, TEST, TRAINING};
use crate::footprint::MOST_BYTES;
use crate::leaks::is_training;

pub type Event = (&'static str, fn(&Coverage) -> bool);

/// Looked at in good files only.
pub const LISTS: [Event; 22] = [
    ("no leak lines", |c| c.leaks().is_empty()),
    ("1 leak line", |c| c.leaks().len() == 1),
    ("2 leak lines", |c| c.leaks().len() == 2),
    ("3 to 9 leak lines", |c| (3..10).contains(&c.leaks().len())),
    ("10 to 99 leak lines", |c| (10..100).contains(&c.leaks().len())),
    ("100 leak lines or more", |c| c.leaks().len() >= 100),
    ("40 bytes, than which none is shorter", |c| c.length() == SHORTEST),
    ("41 to 99 bytes", |c| (41..100).contains(&c.length())),
    ("100 to 999 bytes", |c| (100..1_000).contains(&c.length())),
    ("1,000 bytes or more", |c| c.length() >= 1_000),
    ("N of 1 digit", |c| has_pairs(c, 1, 9)),
    ("N of 2 digits", |c| has_pairs(c, 10, 99)),
    ("N of 3 digits", |c| has_pairs(c, 100, 999)),
    ("N from 256 on", |c| has_pairs(c, 256, u32::MAX)),
    ("touching 0", |c| c.touching() == 0),
    ("touching 1", |c| c.touching() == 1),
    ("touching 2 to 9", |c| (2..10).contains(&c.touching())),
    ("touching 10 to 99", |c| (10..100).contains(&c.touching())),
    ("touching 100 or more", |c| c.touching() >= 100),
    ("neither leak lines nor touching ones", nothing),
    ("touching ones and no leak lines", touching_alone),
    ("touching ones and leak lines", |c| !c.leaks().is_empty() && c.touching() > 0),
];

pub const RECORDINGS: [Event; 21] = [
    ("none", |c| c.lines.is_empty()),
    ("test ones alone", |c| only(c, TEST)),
    ("training ones alone", |c| only(c, TRAINING)),
    ("held back ones alone", |c| only(c, HELD_BACK)),
    ("64 of them", |c| c.lines.len() == 64),
    ("all tests and trainings overlap, several of each", |c| all_pairs(c, c.leaks().len())),
    ("all tests and trainings touch, several of each", |c| all_pairs(c, c.touching() as usize)),
    ("no line for some between two that have one", has_gap),
    ("two with overlapping triangle pairs only", |c| c.pairs.overlapping_alone),
    ("two with touching triangle pairs only", |c| c.pairs.touching_alone),
    ("two with both, an overlapping pair first", |c| c.pairs.overlapping_first),
    ("two with both, a touching pair first", |c| c.pairs.touching_first),
    ("two with several touching triangle pairs only", |c| c.pairs.touching_often),
    ("test before training", |c| c.leaks().iter().any(|l| c.place_of(l.test) < c.place_of(l.training))),
    ("training before test", |c| c.leaks().iter().any(|l| c.place_of(l.test) > c.place_of(l.training))),
    ("test ids that do not ascend", |c| c.leaks().windows(2).any(|two| two[0].test > two[1].test)),
    ("training ids that do not ascend", |c| {
        c.leaks().windows(2).any(|two| two[0].test == two[1].test && two[0].training > two[1].training)
    }),
    ("id 0 in a line", |c| has_id(c, 0, 0)),
    ("id 4,294,967,295 in a line", |c| has_id(c, u32::MAX, u32::MAX)),
    ("id of 2^31 or more as test", |c| c.leaks().iter().any(|leak| leak.test >= 1 << 31)),
    ("id of 2^31 or more as training", |c| c.leaks().iter().any(|leak| leak.training >= 1 << 31)),
];

pub const TRIANGLES: [Event; 11] = [
    ("touching in a whole edge", |c| c.pairs.whole_edge),
    ("touching in a part of an edge", |c| c.pairs.part_of_an_edge),
    ("touching in a point", |c| c.pairs.point),
    ("apart, but truly touching", |c| c.pairs.missed),
    ("a line by rounding, of an area truly zero", |c| c.pairs.overlapping_by_rounding),
    ("another N with U and V exchanged", |c| c.pairs.another_n),
    ("another K with U and V exchanged", |c| c.pairs.another_k),
    ("the first of several overlap alone", |c| c.pairs.first_overlaps),
    ("the last of several overlap alone", |c| c.pairs.last_overlaps),
    ("the first of several touch alone", |c| c.pairs.first_touches),
    ("the last of several touch alone", |c| c.pairs.last_touches),
];

/// Of a list and a room lent for it.
pub type Lent = (&'static str, fn(&Coverage, Room) -> bool);

/// Bytes of the shortest first line and of the shortest list.
const FIRST_LINE: usize = 8;
const SHORTEST: usize = 40;

pub const ROOMS: [Lent; 25] = [
    ("7, NULL", |c, room| c.accepted() && room.null),
    ("7, empty, not NULL", |c, room| c.accepted() && room.length == 0 && !room.null),
    ("7, 1 to 7 bytes", |c, room| c.accepted() && (1..FIRST_LINE).contains(&room.length)),
    ("7, the first line fits", |c, room| too_short(c, room) && room.length >= FIRST_LINE),
    ("7, all but the closing lines fit", |c, room| {
        c.accepted() && room.length == before_closing_lines(c.text())
    }),
    ("7, and a part of the line of touching ones", |c, room| {
        c.accepted()
            && (before_closing_lines(c.text()) + 1..before_last_line(c.text())).contains(&room.length)
    }),
    ("7, all but the last line fit", |c, room| c.accepted() && room.length == before_last_line(c.text())),
    ("7, and a part of the last line", |c, room| {
        too_short(c, room) && room.length > before_last_line(c.text())
    }),
    ("7, two bytes short", |c, room| c.accepted() && room.length + 2 == c.length()),
    ("7, one byte short", |c, room| c.accepted() && room.length + 1 == c.length()),
    ("7, one byte short, K of 2 digits", |c, room| c.held_back() > 9 && room.length + 1 == c.length()),
    ("7, one byte short of touching ones alone", |c, room| {
        touching_alone(c) && room.length + 1 == c.length()
    }),
    ("7, one byte short of nothing", |c, room| nothing(c) && room.length + 1 == c.length()),
    ("as long as the list", |c, room| c.accepted() && room.length == c.length()),
    ("as long as the list, K of 2 digits", |c, room| c.held_back() > 9 && room.length == c.length()),
    ("as long as touching ones alone", |c, room| touching_alone(c) && room.length == c.length()),
    ("as long as nothing", |c, room| nothing(c) && room.length == c.length()),
    ("one byte longer", |c, room| c.accepted() && room.length == c.length() + 1),
    ("two bytes longer", |c, room| c.accepted() && room.length == c.length() + 2),
    ("longer", |c, room| c.accepted() && room.length > c.length() + 2),
    ("65,536 bytes", |c, room| c.accepted() && room.length == MOST_BYTES),
    ("refused file, NULL", |c, room| !c.accepted() && room.null),
    ("refused file, empty, not NULL", |c, room| !c.accepted() && room.length == 0 && !room.null),
    ("refused file, 1 to 39 bytes", |c, room| !c.accepted() && (1..SHORTEST).contains(&room.length)),
    ("refused file, 40 bytes or more", |c, room| !c.accepted() && room.length >= SHORTEST),
];

fn has_pairs(c: &Coverage, least: u32, most: u32) -> bool {
    c.leaks().iter().any(|leak| (least..=most).contains(&leak.pairs))
}

pub fn has_id(c: &Coverage, least: u32, most: u32) -> bool {
    c.leaks().iter().any(|leak| [leak.test, leak.training].iter().any(|id| (least..=most).contains(id)))
}

fn only(c: &Coverage, set: u8) -> bool {
    !c.lines.is_empty() && c.recordings_of(set) == c.lines.len()
}

/// Whether so many are all the pairs of test and training recordings.
fn all_pairs(c: &Coverage, count: usize) -> bool {
    let (tests, trainings) = (c.recordings_of(TEST), c.trainings());
    tests > 1 && trainings > 1 && count == tests * trainings
}

/// Two neighbouring lines of one test recording leave a training recording out.
fn has_gap(c: &Coverage) -> bool {
    let left_out = |from: usize, to: usize| c.lines[from + 1..to.max(from + 1)].iter().any(is_training);
    c.leaks().windows(2).any(|two| {
        two[0].test == two[1].test && left_out(c.place_of(two[0].training), c.place_of(two[1].training))
    })
}

fn nothing(c: &Coverage) -> bool {
    c.accepted() && c.leaks().is_empty() && c.touching() == 0
}

fn touching_alone(c: &Coverage) -> bool {
    c.leaks().is_empty() && c.touching() > 0
}

fn too_short(c: &Coverage, room: Room) -> bool {
    c.accepted() && room.length < c.length()
}
