//! What a wrong program could do unseen unless a call brings it about.

use super::called::{Called, Gathered};
use super::run::{Buffer, Step};
use crate::arrival::{AFTER_THE_END, OTHER_BUFFER, TOO_LONG};
use crate::footprint::stored::{Trailer, ENTRY, TRAILER, TRIANGLE};
use crate::footprint::{judge, MOST_BYTES};

pub type Event = (&'static str, fn(&Called) -> bool);

/// Kinds of calls.
pub const CALLS: [Event; 3] =
    [("piece", |c| c.has_bytes()), ("empty piece", |c| c.is_empty_piece()), ("end", |c| c.is_end())];

/// Of pieces that are taken, after calls that gave back what is handed in.
pub const PIECES: [Event; 33] = [
    ("empty, NULL", |c| c.is_empty_piece() && is_null(c)),
    ("empty, not NULL", |c| c.is_empty_piece() && !is_null(c)),
    ("empty, before anything", |c| c.is_empty_piece() && c.before.arrived == 0),
    ("empty, behind others", |c| c.is_empty_piece() && (1..MOST_BYTES).contains(&before(c))),
    ("empty, with the buffer full", |c| c.is_empty_piece() && before(c) == MOST_BYTES),
    ("empty, with too much before", |c| c.is_empty_piece() && c.before.arrived == TOO_LONG),
    ("the first call of all", |c| c.has_bytes() && c.number_before.is_none()),
    ("1 byte", |c| c.length() == Some(1)),
    ("2 to 15 bytes", |c| has(c, 2, 15)),
    ("16 to 511 bytes", |c| has(c, 16, 511)),
    ("512 to 65,534 bytes", |c| has(c, 512, 65_534)),
    ("65,535 bytes", |c| c.length() == Some(65_535)),
    ("65,536 bytes", |c| c.length() == Some(65_536)),
    ("65,537 bytes", |c| c.length() == Some(65_537)),
    ("65,538 to 131,071 bytes", |c| has(c, 65_538, 131_071)),
    ("131,072 bytes or more", |c| has(c, 131_072, usize::MAX)),
    ("fills the buffer by itself", |c| before(c) == 0 && after(c) == MOST_BYTES),
    ("fills the buffer behind others", |c| fills(c) && before(c) > 0),
    ("fills the buffer, by one byte", |c| fills(c) && c.length() == Some(1)),
    ("fills the buffer but for one byte", |c| c.has_bytes() && after(c) + 1 == MOST_BYTES),
    ("fills the buffer but for two bytes or three", |c| {
        c.has_bytes() && (MOST_BYTES - 3..MOST_BYTES - 1).contains(&after(c))
    }),
    ("one byte too many", |c| passes(c) && total(c) == MOST_BYTES + 1),
    ("one byte too many, of several bytes behind others", |c| {
        passes(c) && total(c) == MOST_BYTES + 1 && before(c) > 0 && has(c, 2, usize::MAX)
    }),
    ("several bytes too many", |c| passes(c) && total(c) > MOST_BYTES + 1),
    ("too many by the buffer's length or more", |c| passes(c) && total(c) >= 2 * MOST_BYTES),
    ("too many, 1 byte of it fits", |c| passes(c) && before(c) + 1 == MOST_BYTES),
    ("too many, 2 to 7 bytes of it fit", |c| passes(c) && (2..8).contains(&(MOST_BYTES - before(c)))),
    ("too many, 8 bytes of it fit", |c| passes(c) && before(c) + 8 == MOST_BYTES),
    ("too many, more than 8 bytes of it fit", |c| passes(c) && before(c) + 8 < MOST_BYTES),
    ("too many, nothing before", |c| passes(c) && before(c) == 0),
    ("1 byte, with the buffer full", |c| before(c) == MOST_BYTES && c.length() == Some(1)),
    ("several bytes, with the buffer full", |c| before(c) == MOST_BYTES && has(c, 2, usize::MAX)),
    ("not empty, with too much before", |c| c.before.arrived == TOO_LONG && c.has_bytes()),
];

/// Of a file that has come, and what it was cut into.
pub type OfFile = (&'static str, fn(&Gathered) -> bool);

/// For every number that its end can be answered with.
pub const WAYS: [OfFile; 6] = [
    ("in one piece", |g| g.cuts.len() == 1),
    ("in two pieces", |g| g.cuts.len() == 2),
    ("in three pieces or more", |g| g.cuts.len() > 2),
    ("byte by byte", |g| g.file.len() > 1 && g.cuts.len() == g.file.len()),
    ("with empty pieces", |g| g.empty_pieces > 0 && !g.cuts.is_empty()),
    ("with wrong buffers among them", |g| g.wrong_buffers > 0 && !g.cuts.is_empty()),
];

/// Of good files.
pub const ACCEPTED: [OfFile; 12] = [
    ("cut behind the first byte", |g| g.cuts.contains(&1)),
    ("cut before the last byte", |g| g.cuts.contains(&(g.file.len() - 1))),
    ("cut before the trailer", |g| g.cuts.contains(&(g.file.len() - TRAILER))),
    ("cut within the trailer", |g| g.cuts.iter().any(|cut| cut + TRAILER > g.file.len())),
    ("cut before the table", |g| table_of(g) > 0 && g.cuts.contains(&table_of(g))),
    ("cut within an entry", |g| {
        let table = table_of(g)..g.file.len() - TRAILER;
        g.cuts.iter().any(|cut| table.contains(cut) && (cut - table.start) % ENTRY != 0)
    }),
    ("cut between two entries", |g| {
        let table = table_of(g) + 1..g.file.len() - TRAILER;
        g.cuts.iter().any(|cut| table.contains(cut) && (cut + 1 - table.start) % ENTRY == 0)
    }),
    ("cut within a triangle", |g| g.cuts.iter().any(|cut| *cut < table_of(g) && cut % TRIANGLE != 0)),
    ("cut between two triangles", |g| {
        g.cuts.iter().any(|cut| (1..table_of(g)).contains(cut) && cut % TRIANGLE == 0)
    }),
    ("12 bytes", |g| g.file.len() == 12),
    ("60,000 bytes or more", |g| g.file.len() >= 60_000),
    ("65,532 bytes", |g| g.file.len() == 65_532),
];

/// Of any files, by their lengths.
pub const TOTALS: [OfFile; 12] = [
    ("no call before", |g| g.file.is_empty() && g.empty_pieces + g.wrong_buffers == 0),
    ("nothing but empty pieces before", |g| g.file.is_empty() && g.empty_pieces > 0),
    ("1 to 11 bytes", |g| (1..12).contains(&g.file.len())),
    ("65,533 to 65,535 bytes", |g| (65_533..65_536).contains(&g.file.len())),
    ("65,535 bytes", |g| g.file.len() == 65_535),
    ("65,536 bytes", |g| g.file.len() == 65_536),
    ("65,537 bytes", |g| g.file.len() == 65_537),
    ("65,538 to 131,071 bytes", |g| (65_538..131_072).contains(&g.file.len())),
    ("131,072 bytes or more", |g| g.file.len() >= 131_072),
    ("a multiple of 65,536 bytes, and more than one", |g| {
        g.file.len() > MOST_BYTES && g.file.len() % MOST_BYTES == 0
    }),
    ("too long, and to 16 bits a good file at the front", |g| is_good_to_16_bits(g)),
    ("in the buffer of another file", |g| g.again),
];

/// Of a length that a file may have, but no good one.
pub const FULL: [(&str, u32); 4] = [
    ("12 of 65,536 bytes", 12),
    ("13 of 65,536 bytes", 13),
    ("14 of 65,536 bytes", 14),
    ("15 of 65,536 bytes", 15),
];

/// What comes after a refused call.
pub const ORDERS: [Event; 8] = [
    ("22 after 22", |c| c.answer.number == AFTER_THE_END && c.number_before == Some(AFTER_THE_END)),
    ("22 after 23", |c| c.answer.number == AFTER_THE_END && c.number_before == Some(OTHER_BUFFER)),
    ("23 after 22", |c| c.answer.number == OTHER_BUFFER && c.number_before == Some(AFTER_THE_END)),
    ("23 after 23", |c| c.answer.number == OTHER_BUFFER && c.number_before == Some(OTHER_BUFFER)),
    ("a piece taken after 23", |c| is_taken_after_23(c) && c.has_bytes()),
    ("an empty piece taken after 23", |c| is_taken_after_23(c) && c.is_empty_piece()),
    ("a good end after 23", |c| is_taken_after_23(c) && c.is_end() && c.answer.number == 0),
    ("a refused end after 23", |c| is_taken_after_23(c) && c.is_end() && c.answer.number != 0),
];

/// Of wrong buffers, for every kind of call.
pub const BUFFERS: [Event; 11] = [
    ("NULL", |c| c.buffer() == Buffer::Null),
    ("empty, not NULL", |c| matches!(c.buffer(), Buffer::Other(0))),
    ("1 to 11 bytes", |c| (1..12).contains(&lent(c))),
    ("12 to 65,534 bytes", |c| (12..65_535).contains(&lent(c))),
    ("65,535 bytes", |c| lent(c) == 65_535),
    ("65,537 bytes", |c| lent(c) == 65_537),
    ("65,538 to 131,071 bytes", |c| (65_538..131_072).contains(&lent(c))),
    ("131,072 bytes", |c| lent(c) == 131_072),
    ("more than 131,072 bytes", |c| lent(c) > 131_072),
    ("the front of the right one", |c| matches!(c.buffer(), Buffer::Front(_))),
    ("as long as what has arrived, or longer", |c| lent(c) < MOST_BYTES && lent(c) >= before(c)),
];

/// When they are lent.
pub const WHEN: [Event; 6] = [
    ("before anything", |c| before(c) == 0 && c.before.ended == 0),
    ("behind others", |c| (1..MOST_BYTES).contains(&before(c)) && c.before.ended == 0),
    ("with the buffer full", |c| before(c) == MOST_BYTES && c.before.ended == 0),
    ("with too much before", |c| c.before.arrived == TOO_LONG && c.before.ended == 0),
    ("after the end, before 22", |c| c.before.ended == 1 && !c.made_up),
    ("after an end that no call gave back, before 22", |c| c.before.ended > 1),
];

/// What is handed in as ended.
pub const ENDED: [Event; 7] = [
    ("1", |c| c.before.ended == 1),
    ("2", |c| c.before.ended == 2),
    ("256", |c| c.before.ended == 256),
    ("65,536", |c| c.before.ended == 65_536),
    ("2^31", |c| c.before.ended == 1 << 31),
    ("2^32 - 1", |c| c.before.ended == u32::MAX),
    ("any, with more arrived than a call says", |c| c.before.ended != 0 && c.before.arrived > TOO_LONG),
];

/// What is handed in as arrived, of a file that has not ended.
pub const ARRIVED: [Event; 8] = [
    ("65,536", |c| c.before.arrived == 65_536),
    ("65,537", |c| c.before.arrived == 65_537),
    ("65,538", |c| c.before.arrived == 65_538),
    ("65,539 to 131,071", |c| (65_539..131_072).contains(&c.before.arrived)),
    ("131,072 to 2^31 - 1", |c| (131_072..1 << 31).contains(&c.before.arrived)),
    ("2^31", |c| c.before.arrived == 1 << 31),
    ("2^31 + 1 to 2^32 - 2", |c| ((1 << 31) + 1..u32::MAX).contains(&c.before.arrived)),
    ("2^32 - 1", |c| c.before.arrived == u32::MAX),
];

/// Of states that no call has given back, and of a file that has not ended.
pub const MADE_UP: [Event; 6] = [
    ("a piece that to 32 bits ends within the buffer", |c| {
        let to_32_bits = c.before.arrived.wrapping_add(c.length().unwrap_or(0) as u32) as usize;
        c.has_bytes() && total(c) > 1 << 32 && to_32_bits <= MOST_BYTES
    }),
    ("a piece that to 32 bits fills the first byte or none", |c| {
        c.has_bytes() && (1 << 32..(1 << 32) + 2).contains(&total(c))
    }),
    ("a piece behind what has not come", |c| c.has_bytes() && (1..MOST_BYTES).contains(&before(c))),
    ("an empty piece behind what has not come", |c| {
        c.is_empty_piece() && (1..MOST_BYTES).contains(&before(c))
    }),
    ("a good end of what has not come", |c| c.is_end() && c.answer.number == 0),
    ("a refused end of what has not come", |c| {
        c.is_end() && c.answer.number != 0 && (1..=MOST_BYTES).contains(&before(c))
    }),
];

/// Of ends of files to which somebody else has written.
pub const TOUCHED: [Event; 5] = [
    ("good by it", |c| is_touched(c) && c.answer.number == 0 && number_of_whole(c) != 0),
    ("good all the same", |c| is_touched(c) && c.answer.number == 0 && number_of_whole(c) == 0),
    ("refused by it", |c| is_touched(c) && c.answer.number != 0 && number_of_whole(c) == 0),
    ("refused all the same", |c| is_touched(c) && c.answer.number != 0 && number_of_whole(c) != 0),
    ("good, touched behind what had come", |c| {
        c.answer.number == 0 && of_gathered(c, |g| g.touched_behind && !g.touched)
    }),
];

pub fn of_gathered(c: &Called, test: impl Fn(&Gathered) -> bool) -> bool {
    c.gathered.as_ref().map_or(false, test)
}

fn is_null(c: &Called) -> bool {
    matches!(c.step, Step::Piece { null: true, .. })
}

fn has(c: &Called, least: usize, most: usize) -> bool {
    c.length().map_or(false, |length| (least..=most).contains(&length))
}

fn before(c: &Called) -> usize {
    c.before.arrived as usize
}

fn after(c: &Called) -> usize {
    c.answer.arrived as usize
}

fn total(c: &Called) -> usize {
    before(c) + c.length().unwrap_or(0)
}

fn fills(c: &Called) -> bool {
    c.has_bytes() && after(c) == MOST_BYTES
}

/// A part of it fits.
fn passes(c: &Called) -> bool {
    before(c) < MOST_BYTES && total(c) > MOST_BYTES
}

fn lent(c: &Called) -> usize {
    c.buffer().length()
}

fn is_taken_after_23(c: &Called) -> bool {
    c.taken() && c.number_before == Some(OTHER_BUFFER)
}

/// Of a good file.
fn table_of(g: &Gathered) -> usize {
    Trailer::read(&g.file[g.file.len() - TRAILER..]).table as usize
}

fn is_good_to_16_bits(g: &Gathered) -> bool {
    g.file.len() > MOST_BYTES && judge(&g.file[..g.file.len() % MOST_BYTES]).number == 0
}

fn is_touched(c: &Called) -> bool {
    of_gathered(c, |g| g.touched)
}

/// What would have been said of the file as it came.
fn number_of_whole(c: &Called) -> u32 {
    c.gathered.as_ref().map_or(0, |g| judge(&g.file).number)
}
