//! What a wrong program could do unseen unless an id, or a room lent for its text, brings it about.

use super::asked::Asked;
use super::calls::{behind_first_polygon, Call};
use crate::files::coverage::Of;
use crate::footprint::MOST_BYTES;
use crate::wkt::{MOST_TEXT, NO_SUCH_ID};

pub type Event = (&'static str, fn(&Asked) -> bool);

/// Of recordings that are there.
pub const RECORDINGS: [Event; 25] = [
    ("the only one", |a| a.of.lines.len() == 1),
    ("the first of several", |a| a.place() == Some(Of::First)),
    ("between first and last", |a| a.place() == Some(Of::Middle)),
    ("the last of several", |a| a.place() == Some(Of::Last)),
    ("the last of 64", |a| a.entry == Some(63)),
    ("set 0", |a| a.set() == Some(0)),
    ("set 1", |a| a.set() == Some(1)),
    ("set 2", |a| a.set() == Some(2)),
    ("last byte 1", |a| a.entry.map(|k| a.of.lines[k].last) == Some(1)),
    ("id 0", |a| a.id == 0),
    ("id 4,294,967,295", |a| a.id == u32::MAX),
    ("id of 2^31 or more", |a| a.id >= 1 << 31),
    ("id that is its own number in the table", |a| a.entry == Some(a.id as usize)),
    ("id that is another one's number in the table", |a| is_number(a) && a.entry != Some(a.id as usize)),
    ("id that is where its own first triangle is", |a| a.entry.map(|k| a.of.lines[k].first) == Some(a.id)),
    ("id that stands behind the table too", |a| a.of.behind_the_table() == Some(a.id)),
    ("1 triangle", |a| a.triangles.len() == 1),
    ("2 triangles", |a| a.triangles.len() == 2),
    ("3 to 9 triangles", |a| (3..10).contains(&a.triangles.len())),
    ("10 to 99 triangles", |a| (10..100).contains(&a.triangles.len())),
    ("100 to 999 triangles", |a| (100..1_000).contains(&a.triangles.len())),
    ("1,000 triangles or more", |a| a.triangles.len() >= 1_000),
    ("clockwise triangles", |a| a.has_orientation(true)),
    ("anticlockwise triangles", |a| a.has_orientation(false)),
    ("the same triangle twice in turn", |a| a.triangles.windows(2).any(|two| two[0] == two[1])),
];

pub const TEXTS: [Event; 6] = [
    ("75 bytes, than which none is shorter", |a| a.length() == 75),
    ("76 to 99 bytes", |a| (76..100).contains(&a.length())),
    ("100 to 999 bytes", |a| (100..1_000).contains(&a.length())),
    ("1,000 to 9,999 bytes", |a| (1_000..10_000).contains(&a.length())),
    ("10,000 to 65,536 bytes", |a| (10_000..=MOST_BYTES).contains(&a.length())),
    ("more than 65,536 bytes", |a| a.length() > MOST_BYTES),
];

/// Of ids that are not in a good file.
pub const NOT_THERE: [Event; 19] = [
    ("one more than one that is there", |a| is_with(a, |id| id.wrapping_add(1))),
    ("one less than one that is there", |a| is_with(a, |id| id.wrapping_sub(1))),
    ("a bit off", |a| ids(a).any(|id| (id ^ a.id).count_ones() == 1)),
    ("right but for the first byte", |a| ids(a).any(|id| (id ^ a.id) & 0xffff_ff00 == 0)),
    ("right but for the last byte", |a| ids(a).any(|id| (id ^ a.id) & 0x00ff_ffff == 0)),
    ("right to 8 bits", |a| ids(a).any(|id| (id ^ a.id) & 0xff == 0)),
    ("right to 16 bits", |a| ids(a).any(|id| (id ^ a.id) & 0xffff == 0)),
    ("right but for the sign of 32 bits", |a| is_with(a, u32::wrapping_neg)),
    ("with its bytes the other way round", |a| is_with(a, u32::swap_bytes)),
    ("number of a recording in the table", is_number),
    ("number of recordings", |a| a.id as usize == a.of.lines.len()),
    ("0", |a| a.id == 0),
    ("4,294,967,295", |a| a.id == u32::MAX),
    ("the file's length", |a| a.id as usize == a.of.file.len()),
    ("what stands behind the table", |a| a.of.behind_the_table() == Some(a.id)),
    ("what stands before the table", |a| a.of.before_the_table() == Some(a.id)),
    ("where a recording's first triangle is", |a| a.of.lines.iter().any(|line| line.first == a.id)),
    ("four bytes of the file that are no field", is_anywhere),
    ("of no recordings", |a| a.of.lines.is_empty()),
];

/// Of ids that stand in a refused file, by the file's number and what is wrong where.
pub const REFUSED: [Event; 11] = [
    ("17, a triangle before the recording's", |a| triangle_at(a, 17, |place, _| place < 0)),
    ("17, a triangle of the recording", |a| triangle_at(a, 17, |place, bytes| (0..bytes).contains(&place))),
    ("17, a triangle behind the recording's", |a| triangle_at(a, 17, |place, bytes| place >= bytes)),
    ("18, a triangle before the recording's", |a| triangle_at(a, 18, |place, _| place < 0)),
    ("18, a triangle of the recording", |a| triangle_at(a, 18, |place, bytes| (0..bytes).contains(&place))),
    ("18, a triangle behind the recording's", |a| triangle_at(a, 18, |place, bytes| place >= bytes)),
    ("14, an entry before the recording's", |a| entry_at(a, 14, |place| place < 0)),
    ("14, the recording's entry", |a| entry_at(a, 14, |place| place == 0)),
    ("14, an entry behind the recording's", |a| entry_at(a, 14, |place| place > 0)),
    ("16, the id itself is there twice", |a| a.of.verdict.number == 16 && a.is_there_twice()),
    ("16, another id is there twice", |a| {
        a.of.verdict.number == 16 && a.entry.is_some() && !a.is_there_twice()
    }),
];

/// Of an id and a room.
pub type Lent = (&'static str, fn(&Asked, &Call) -> bool);

/// For the text of a recording that is there.
pub const ROOMS: [Lent; 13] = [
    ("20, NULL", |_, call| call.room == 0 && call.null[1]),
    ("20, empty, not NULL", |_, call| call.room == 0 && !call.null[1]),
    ("20, 1 byte", |_, call| call.room == 1),
    ("20, a part of the opening fits", |_, call| (2..20).contains(&call.room)),
    ("20, the opening just fits", |_, call| call.room == 20),
    ("20, a part of the first polygon fits", |_, call| (21..75).contains(&call.room)),
    ("20, the first of several polygons just fits", |a, call| {
        behind_first_polygon(&a.text) == Some(call.room)
    }),
    ("20, several polygons fit", |a, call| {
        call.room < a.length() && behind_first_polygon(&a.text).map_or(false, |room| room < call.room)
    }),
    ("just as long", |a, call| call.room == a.length()),
    ("longer by more than 3", |a, call| call.room > a.length() + 3),
    ("65,536 bytes", |_, call| call.room == MOST_BYTES),
    ("20, 65,536 bytes", |a, call| call.room == MOST_BYTES && a.length() > MOST_BYTES),
    ("256,545 bytes or more", |_, call| call.room >= MOST_TEXT),
];

/// Which refusal comes first: of a file that is good, and then of one that is not.
pub const ORDERS: [Lent; 8] = [
    ("21 before 20, NULL", |a, call| not_there(a) && call.room == 0 && call.null[1]),
    ("21 before 20, empty, not NULL", |a, call| not_there(a) && call.room == 0 && !call.null[1]),
    ("21 before 20, 1 to 74 bytes, too few for any text", |a, call| {
        not_there(a) && (1..75).contains(&call.room)
    }),
    ("21 with room for a text", |a, call| not_there(a) && call.room >= 75),
    ("21 of no recordings, empty room", |a, call| not_there(a) && a.of.lines.is_empty() && call.room == 0),
    ("11, empty file, NULL", |a, call| a.of.file.is_empty() && call.null[0]),
    ("11, empty file, not NULL", |a, call| a.of.file.is_empty() && !call.null[0]),
    ("11, file and room NULL", |a, call| a.of.file.is_empty() && call.room == 0 && call.null == [true; 2]),
];

/// Of a refused file, for each of its numbers.
pub const BEFORE: [Lent; 4] = [
    ("before nothing else", |a, call| a.ample_room().map_or(false, |room| room <= call.room)),
    ("before 20, empty room", |a, call| a.entry.is_some() && call.room == 0),
    ("before 21", |a, call| a.entry.is_none() && call.room >= 75),
    ("before 21 and 20, empty room", |a, call| a.entry.is_none() && call.room == 0),
];

fn ids<'a>(a: &'a Asked) -> impl Iterator<Item = u32> + 'a {
    a.of.lines.iter().map(|line| line.id)
}

fn is_with(a: &Asked, change: fn(u32) -> u32) -> bool {
    ids(a).any(|id| change(id) == a.id)
}

fn is_number(a: &Asked) -> bool {
    (a.id as usize) < a.of.lines.len()
}

fn is_anywhere(a: &Asked) -> bool {
    let bytes = a.id.to_le_bytes();
    (0..a.of.file.len()).any(|k| k % 4 != 0 && a.of.file[k..].starts_with(&bytes))
}

fn not_there(a: &Asked) -> bool {
    a.answer.number == NO_SUCH_ID
}

fn triangle_at(a: &Asked, number: u32, test: fn(i64, i64) -> bool) -> bool {
    a.of.verdict.number == number && a.refused_triangle().map_or(false, |(place, bytes)| test(place, bytes))
}

fn entry_at(a: &Asked, number: u32, test: fn(i64) -> bool) -> bool {
    a.of.verdict.number == number && a.refused_entry().map_or(false, test)
}
