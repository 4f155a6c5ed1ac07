//! What a wrong program could do unseen unless a draft, or a way to lend it, brings it about.

pub mod editions;

use super::calls::Call;
use super::coverage::Coverage;
use super::faults::sum_of;
use crate::files::coverage::Of;
use crate::files::shapes::{cross, equal_vertices, larger_product, only_out_of_range};
use crate::footprint::stored::HELD_BACK;
use crate::footprint::MOST_BYTES;
use crate::writer::Reason;

pub type Event = (&'static str, fn(&Coverage) -> bool);

/// Looked at in good drafts only.
pub const WRITTEN: [Event; 22] = [
    ("no recordings", |c| recordings(c) == 0),
    ("1 recording", |c| recordings(c) == 1),
    ("2 recordings", |c| recordings(c) == 2),
    ("3 to 62 recordings", |c| (3..63).contains(&recordings(c))),
    ("63 recordings", |c| recordings(c) == 63),
    ("64 recordings", |c| recordings(c) == 64),
    ("65,532 bytes, which no file exceeds", |c| c.draft.length() == 65_532),
    ("set 0", |c| c.draft.sets.contains(&0)),
    ("set 1", |c| c.draft.sets.contains(&1)),
    ("set 0 in every entry of several", |c| recordings(c) > 1 && c.draft.sets.iter().all(|set| *set == 0)),
    ("set 1 in every entry of several", |c| recordings(c) > 1 && c.draft.sets.iter().all(|set| *set == 1)),
    ("id 0", |c| c.draft.ids.contains(&0)),
    ("id 4,294,967,295", |c| c.draft.ids.contains(&u32::MAX)),
    ("two ids that differ in their first byte only", |c| near_ids(c, 0xff)),
    ("two ids that differ in their last byte only", |c| near_ids(c, 0xff00_0000)),
    ("a count over 255", |c| c.draft.counts.iter().any(|count| *count > 255)),
    ("counts that are not all alike", |c| c.draft.counts.windows(2).any(|two| two[0] != two[1])),
    ("coordinate 1,000,000", |c| c.shapes.highest),
    ("coordinate -1,000,000", |c| c.shapes.lowest),
    ("both orientations", |c| c.shapes.clockwise && c.shapes.anticlockwise),
    ("cross that is zero to 32 bits", |c| c.shapes.zero_to_32_bits),
    ("long triangle with a cross of 1 or -1", |c| c.shapes.thin),
];

/// Whatever comes of it.
pub const RECORDINGS: [Event; 8] = [
    ("none", |c| of_each_list(c, 0)),
    ("1", |c| of_each_list(c, 1)),
    ("2", |c| of_each_list(c, 2)),
    ("63", |c| of_each_list(c, 63)),
    ("64", |c| of_each_list(c, 64)),
    ("65", |c| of_each_list(c, 65)),
    ("66", |c| of_each_list(c, 66)),
    ("hundreds", |c| c.draft.recordings() >= 100),
];

pub const AT_ENTRY: [Event; 27] = [
    ("14, set 2", is_held_back),
    ("14, set 2, the only entry", |c| is_held_back(c) && recordings(c) == 1),
    ("14, set 2, first of several entries", |c| is_held_back(c) && recordings(c) > 1 && c.place() == 0),
    ("14, set 2, middle entry", |c| is_held_back(c) && c.entry() == Of::Middle),
    ("14, set 2, last entry", |c| is_held_back(c) && c.entry() == Of::Last),
    ("14, set 2, the 64th entry of 64", |c| is_held_back(c) && c.place() == 63 && recordings(c) == 64),
    ("14, set 2, beyond the 64th entry", |c| is_held_back(c) && c.place() >= 64),
    ("14, set 2 of one entry, and nothing else", |c| is_held_back(c) && c.refused_alone_for(Reason::Set)),
    ("14, set 2 in every entry of several", |c| {
        is_held_back(c) && recordings(c) > 1 && c.draft.sets.iter().all(|set| *set == 2)
    }),
    ("15 at once, though there is set 2", |c| {
        (c.has(Reason::Lengths) || c.has(Reason::BrokenOff)) && c.draft.sets.contains(&2)
    }),
    ("14, set 3", |c| is_of_set(c, 3, 3)),
    ("14, set 4 to 127", |c| is_of_set(c, 4, 127)),
    ("14, set 128 to 130", |c| is_of_set(c, 128, 130)),
    ("14, set 131 to 254", |c| is_of_set(c, 131, 254)),
    ("14, set 255", |c| is_of_set(c, 255, 255)),
    ("14, no triangles, beyond the 64th entry", |c| c.refused_for(Reason::NoTriangles) && c.place() >= 64),
    ("14, set, beyond the 64th entry", |c| c.refused_for(Reason::Set) && c.place() >= 64),
    ("14, no triangles, but the sum is right", |c| {
        c.refused_for(Reason::NoTriangles) && !c.has(Reason::Sum) && recordings(c) > 0
    }),
    ("16, the first entry's id", |c| is_twin(c, |twin, k| twin == 0 && k > 2)),
    ("16, the previous entry's id", |c| is_twin(c, |twin, k| twin + 1 == k && twin > 0)),
    ("16, another entry's id", |c| is_twin(c, |twin, k| twin > 0 && twin + 1 < k)),
    ("16, middle entry", |c| c.refused_for(Reason::Id) && c.entry() == Of::Middle),
    ("16, last entry", |c| c.refused_for(Reason::Id) && c.entry() == Of::Last),
    ("16, beyond the 64th entry", |c| c.refused_for(Reason::Id) && c.place() >= 64),
    ("16, more than 64 entries apart", |c| is_twin(c, |twin, k| k - twin > 64)),
    ("16, both beyond the 64th entry", |c| is_twin(c, |twin, _| twin >= 64)),
    ("16, the 64th entry of 64", |c| c.refused_for(Reason::Id) && c.place() == 63 && recordings(c) == 64),
];

/// Where the set that is retired is looked at before what else is wrong, and where behind it.
pub const HELD_BACK_ORDERS: [Event; 8] = [
    ("14 for set 2 before 16 of the same entry", |c| is_held_back(c) && c.has_at(Reason::Id, c.place())),
    ("14 for set 2 before 16 of the next entry", |c| is_held_back(c) && c.has_at(Reason::Id, c.place() + 1)),
    ("16 before 14 for set 2 of the next entry", |c| {
        c.refused_for(Reason::Id) && c.draft.sets.get(c.place() + 1) == Some(&2)
    }),
    ("14 for set 2 before 15 for the sum", |c| is_held_back(c) && c.has(Reason::Sum)),
    ("14 for set 2 before 17", |c| is_held_back(c) && c.has(Reason::Range)),
    ("14 for set 2 before 18", |c| is_held_back(c) && c.has(Reason::ZeroArea)),
    ("14 for set 2 before 13", |c| is_held_back(c) && c.has(Reason::TooManyRecordings)),
    ("14 for set 2 before 19 for the length", |c| is_held_back(c) && c.has(Reason::TooLong)),
];

pub const AT_SUM: [Event; 14] = [
    ("15, one too many", |c| is_sum(c) && sum_of(c.draft) == triangles(c) + 1),
    ("15, one too few", |c| is_sum(c) && sum_of(c.draft) + 1 == triangles(c)),
    ("15, more than one too many", |c| is_sum(c) && sum_of(c.draft) > triangles(c) + 1),
    ("15, more than one too few", |c| is_sum(c) && sum_of(c.draft) + 1 < triangles(c)),
    ("15, all triangles of a recording missing", |c| is_sum(c) && lacks_a_recording(c)),
    ("15, right to 16 bits", |c| is_sum(c) && sum_of(c.draft) as u16 == triangles(c) as u16),
    ("15, right to 32 bits", |c| is_sum(c) && right_to_32_bits(c, 1)),
    ("15, six times it right to 32 bits alone", |c| is_sum(c) && right_only_with(c, 6, 1)),
    ("15, twelve times it right to 32 bits alone", |c| is_sum(c) && right_only_with(c, 12, 6)),
    ("15, 24 times it right to 32 bits alone", |c| is_sum(c) && right_only_with(c, 24, 12)),
    ("15, a count over 65,535", |c| is_sum(c) && c.draft.counts.iter().any(|count| *count > 65_535)),
    ("15, a count of 4,294,967,295", |c| is_sum(c) && c.draft.counts.contains(&u32::MAX)),
    ("15, no recordings, good triangles", |c| c.refused_alone_for(Reason::Sum) && recordings(c) == 0),
    ("15, no recordings, other triangles", |c| {
        is_sum(c) && recordings(c) == 0 && (c.has(Reason::Range) || c.has(Reason::ZeroArea))
    }),
];

pub const AT_TRIANGLE: [Event; 18] = [
    ("17, first triangle", |c| c.number() == 17 && c.which_triangle() == Of::First),
    ("17, middle triangle", |c| c.number() == 17 && c.which_triangle() == Of::Middle),
    ("17, last triangle", |c| c.number() == 17 && c.which_triangle() == Of::Last),
    ("17, only for 1,000,001", |c| c.number() == 17 && is_only(c, 1_000_001)),
    ("17, only for -1,000,001", |c| c.number() == 17 && is_only(c, -1_000_001)),
    ("17, only for the largest i32", |c| c.number() == 17 && is_only(c, i32::MAX)),
    ("17, only for the smallest i32", |c| c.number() == 17 && is_only(c, i32::MIN)),
    ("17, a difference past 32 bits", |c| c.number() == 17 && widest(c) > i64::from(i32::MAX)),
    ("17, two equal vertices", |c| c.number() == 17 && equal(c) != [false; 3]),
    ("17, three different vertices, flat", |c| {
        c.number() == 17 && equal(c) == [false; 3] && cross(c.triangle()) == 0
    }),
    ("18, first triangle", |c| c.number() == 18 && c.which_triangle() == Of::First),
    ("18, middle triangle", |c| c.number() == 18 && c.which_triangle() == Of::Middle),
    ("18, last triangle", |c| c.number() == 18 && c.which_triangle() == Of::Last),
    ("18, vertices 0 and 1 equal alone", |c| c.number() == 18 && equal(c) == [true, false, false]),
    ("18, vertices 0 and 2 equal alone", |c| c.number() == 18 && equal(c) == [false, true, false]),
    ("18, vertices 1 and 2 equal alone", |c| c.number() == 18 && equal(c) == [false, false, true]),
    ("18, three different vertices", |c| c.number() == 18 && equal(c) == [false; 3]),
    ("18, products past 32 bits", |c| c.number() == 18 && larger_product(c.triangle()) > 1 << 32),
];

pub const AT_END: [Event; 7] = [
    ("13, 65 recordings", |c| c.refused_alone_for(Reason::TooManyRecordings) && recordings(c) == 65),
    ("13, 66 recordings", |c| c.refused_alone_for(Reason::TooManyRecordings) && recordings(c) == 66),
    ("13, hundreds of recordings", |c| c.refused_for(Reason::TooManyRecordings) && recordings(c) >= 100),
    ("19, 65,544 bytes, 1 or 3 recordings", |c| just_too_long(c) && recordings(c) < 4),
    ("19, 65,544 bytes, 63 recordings", |c| just_too_long(c) && recordings(c) == 63),
    ("19, 65,544 bytes, other recordings", |c| just_too_long(c) && (4..63).contains(&recordings(c))),
    ("19, longer", |c| c.refused_for(Reason::TooLong) && c.draft.length() > 65_544),
];

/// Of a draft and a way to lend it.
pub type Lent = (&'static str, fn(&Coverage, &Call) -> bool);

pub const ROOMS: [Lent; 18] = [
    ("19, NULL", |c, call| c.good() && call.room == 0 && call.null[5]),
    ("19, empty, not NULL", |c, call| c.good() && call.room == 0 && !call.null[5]),
    ("19, 1 to 11 bytes", |c, call| c.good() && (1..12).contains(&call.room)),
    ("19, the triangles fit", |c, call| too_short(c, call) && call.room >= 24 * c.draft.triangles()),
    ("19, all but the trailer fit", |c, call| c.good() && call.room + 12 == c.draft.length()),
    ("as long as the file", |c, call| c.good() && call.room == c.draft.length()),
    ("longer by more than 13 bytes", |c, call| c.good() && call.room > c.draft.length() + 13),
    ("65,536 bytes", |c, call| c.good() && call.room == MOST_BYTES),
    ("over 65,536 bytes", |c, call| c.good() && call.room > MOST_BYTES),
    ("no recordings, 11 bytes", |c, call| c.good() && recordings(c) == 0 && call.room == 11),
    ("no recordings, 12 bytes", |c, call| c.good() && recordings(c) == 0 && call.room == 12),
    ("no recordings, all lists NULL", |c, call| {
        c.good() && recordings(c) == 0 && call.null[..5] == [true; 5] && call.room >= 12
    }),
    ("file too long, room too short", |c, call| c.refused_for(Reason::TooLong) && short(c, call)),
    ("file too long, room as long", |c, call| {
        c.refused_for(Reason::TooLong) && call.room == c.draft.length()
    }),
    ("file too long, room longer", |c, call| c.refused_for(Reason::TooLong) && call.room > c.draft.length()),
    ("refused before, NULL", |c, call| refused_before(c) && call.room == 0 && call.null[5]),
    ("refused before, empty, not NULL", |c, call| refused_before(c) && call.room == 0 && !call.null[5]),
    ("refused before, room for the file", |c, call| refused_before(c) && !short(c, call)),
];

/// A list that is empty, in the order of `Call::null`.
pub fn is_empty(c: &Coverage, list: usize) -> bool {
    let draft = c.draft;
    let lengths = draft.lengths();
    lengths.get(list).map_or(draft.numbers.is_empty(), |length| *length == 0)
}

fn recordings(c: &Coverage) -> usize {
    c.draft.recordings()
}

fn triangles(c: &Coverage) -> u64 {
    c.draft.triangles() as u64
}

fn of_each_list(c: &Coverage, count: usize) -> bool {
    !c.has(Reason::Lengths) && recordings(c) == count
}

fn near_ids(c: &Coverage, byte: u32) -> bool {
    let ids = &c.draft.ids;
    ids.iter().any(|one| ids.iter().any(|other| one < other && (one ^ other) & !byte == 0))
}

fn is_of_set(c: &Coverage, least: u8, most: u8) -> bool {
    c.refused_for(Reason::Set) && (least..=most).contains(&c.draft.sets[c.place()])
}

/// Refused for the set that is retired.
fn is_held_back(c: &Coverage) -> bool {
    is_of_set(c, HELD_BACK, HELD_BACK)
}

fn is_twin(c: &Coverage, test: fn(usize, usize) -> bool) -> bool {
    c.refused_for(Reason::Id) && c.twin().map_or(false, |twin| test(twin, c.place()))
}

fn is_sum(c: &Coverage) -> bool {
    c.refused_for(Reason::Sum)
}

/// Of more than one triangle.
fn lacks_a_recording(c: &Coverage) -> bool {
    let missing = |count: &u32| sum_of(c.draft) == triangles(c) + u64::from(*count);
    c.draft.counts.iter().any(|count| *count > 1 && missing(count))
}

/// Whether so many times the sum is what so many times the triangles are, as far as 32 bits go.
fn right_to_32_bits(c: &Coverage, times: u32) -> bool {
    let sum = sum_of(c.draft) as u32;
    sum.wrapping_mul(times) == (triangles(c) as u32).wrapping_mul(times)
}

fn right_only_with(c: &Coverage, times: u32, fewer: u32) -> bool {
    right_to_32_bits(c, times) && !right_to_32_bits(c, fewer)
}

fn is_only(c: &Coverage, value: i32) -> bool {
    only_out_of_range(c.triangle()).map_or(false, |found| found.1 == value)
}

/// The largest difference from the refused triangle's first vertex.
fn widest(c: &Coverage) -> i64 {
    let [x0, y0, x1, y1, x2, y2] = c.triangle().map(i64::from);
    [x1 - x0, x2 - x0, y1 - y0, y2 - y0].map(i64::abs).into_iter().max().unwrap_or(0)
}

/// Of the refused triangle.
fn equal(c: &Coverage) -> [bool; 3] {
    equal_vertices(c.triangle())
}

fn just_too_long(c: &Coverage) -> bool {
    c.refused_for(Reason::TooLong) && c.draft.length() == 65_544
}

fn short(c: &Coverage, call: &Call) -> bool {
    call.room < c.draft.length()
}

fn too_short(c: &Coverage, call: &Call) -> bool {
    c.good() && short(c, call)
}

/// Refused whatever the room.
fn refused_before(c: &Coverage) -> bool {
    !c.good() && !c.refused_for(Reason::TooLong)
}
