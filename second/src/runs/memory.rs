//! A run by the library and the second program side by side: pieces and buffers in memory between walls.

use super::called::{Called, Gathered, Second};
use super::run::{Buffer, Fill, Run, Step};
use super::shown::text_of;
use crate::arrival::{Arrival, State};
use crate::footprint::{lines_of, Entry, Verdict, MOST_BYTES};
use crate::leaks::List;
use crate::lists::pairs_in;
use crate::pages::{Lent, Pages};
use crate::random::Random;
use crate::wkt::{MOST_TEXT, ROOM_TOO_SHORT};
use crate::writer::Written;

/// The library's functions, handed in so that programs without the library can do without it.
pub struct Library {
    pub piece: unsafe fn(State, *const u8, usize, *mut u8, usize) -> Arrival,
    pub end: unsafe fn(State, *const u8, usize) -> Arrival,
    pub check: fn(&[u8]) -> Verdict,
    pub recording: fn(&[u8], usize) -> Entry,
    pub leaks: fn(&[u8], &mut [u8]) -> List,
    pub wkt: fn(&[u8], u32, &mut [u8]) -> Written,
}

pub struct Memory {
    library: Library,
    for_pieces: Pages,
    for_buffers: Pages,
    for_others: Pages,
    /// The front of it is what another buffer holds.
    other: Vec<u8>,
    /// Lists and texts are written into it.
    room: Vec<u8>,
}

/// The longest of the other buffers.
const LONGEST: usize = 6 * MOST_BYTES;

impl Memory {
    pub fn new(library: Library) -> Self {
        Memory {
            library,
            for_pieces: Pages::default(),
            for_buffers: Pages::default(),
            for_others: Pages::default(),
            other: Fill::Rising(100).bytes(LONGEST),
            room: vec![46; MOST_TEXT],
        }
    }

    /// Looks at everything after every call.
    pub fn compare<'a>(&mut self, run: &'a Run, random: &mut Random) -> Result<Vec<Called<'a>>, String> {
        let Memory { library, for_pieces, for_buffers, for_others, other, room } = self;
        let mut second = Second::new(run.fill);
        let mut right = for_buffers.lend(&second.buffer, random);
        let mut calls = Vec::new();
        for (number, step) in run.steps.iter().enumerate() {
            let called = match second.step(step) {
                Some(called) => called,
                None => {
                    if let Step::Touch { .. } = step {
                        // What is lent next stands elsewhere and holds something else.
                        right = for_buffers.lend(&second.buffer, random);
                    }
                    continue;
                }
            };
            let bytes = bytes_of(step);
            let piece = for_pieces.lend(bytes, random);
            let others = match called.buffer() {
                Buffer::Other(length) => &other[..length],
                _ => &[],
            };
            let of_others = for_others.lend(others, random);
            let of_library = answered_by(library, &called, &piece, &right, &of_others);
            let mut differences = String::new();
            if of_library != called.answer {
                differences += &format!("answer\n  library {of_library:?}\n  second  {:?}\n", called.answer);
            }
            differences += &changed(&piece, bytes, "piece");
            differences += &changed(&of_others, others, "other buffer");
            differences += &differing(&right, &second.buffer);
            if let Some(gathered) = called.gathered.as_ref().filter(|gathered| !gathered.touched) {
                differences +=
                    &unlike_the_whole(library, of_library, right.contents(), gathered, room, random);
            }
            if !differences.is_empty() {
                let (before, shown) = (called.before, text_of(run, number));
                return Err(format!("{differences}handed in {before:?} at step {number}\n{shown}"));
            }
            calls.push(called);
        }
        Ok(calls)
    }
}

/// None of an end.
fn bytes_of(step: &Step) -> &[u8] {
    match step {
        Step::Piece { bytes, .. } => bytes,
        _ => &[],
    }
}

fn answered_by(library: &Library, called: &Called, piece: &Lent, right: &Lent, other: &Lent) -> Arrival {
    let (state, length) = (called.before, called.buffer().length());
    let start = match called.buffer() {
        Buffer::Right | Buffer::Front(_) => right.start,
        Buffer::Other(_) => other.start,
        Buffer::Null => std::ptr::null_mut(),
    };
    // All that is lent is there, and no two are in the same memory.
    match called.step {
        Step::Piece { bytes, null, .. } => {
            let from = if *null && bytes.is_empty() { std::ptr::null() } else { piece.start };
            unsafe { (library.piece)(state, from, bytes.len(), start, length) }
        }
        _ => unsafe { (library.end)(state, start, length) },
    }
}

/// From what was lent.
fn changed(lent: &Lent, bytes: &[u8], name: &str) -> String {
    let mut differences = String::new();
    if !lent.holds(bytes) {
        differences += &format!("the {name} was written to\n");
    }
    if !lent.has_its_guards() {
        differences += &format!("the memory around the {name} was written to\n");
    }
    differences
}

/// What the two buffers hold from a little before the first byte that differs.
fn differing(right: &Lent, expected: &[u8]) -> String {
    let mut differences = String::new();
    if !right.holds(expected) {
        let contents = right.contents();
        let first = (0..MOST_BYTES).find(|k| contents[*k] != expected[*k]).unwrap_or(0);
        let shown =
            |bytes: &[u8]| -> Vec<u8> { bytes[first.saturating_sub(4)..].iter().take(24).copied().collect() };
        let (library, second) = (shown(contents), shown(expected));
        differences += &format!(
            "buffer, byte {first} and those around it\n  library {library:?}\n  second  {second:?}\n"
        );
    }
    if !right.has_its_guards() {
        differences += "the memory around the buffer was written to\n";
    }
    differences
}

/// What the library says of a file that has come in pieces, beside what it says of the whole.
fn unlike_the_whole(
    library: &Library,
    end: Arrival,
    buffer: &[u8],
    gathered: &Gathered,
    room: &mut [u8],
    random: &mut Random,
) -> String {
    let whole = &gathered.file[..];
    let verdict = (library.check)(whole);
    if (verdict.number, verdict.place) != (end.number, end.place) {
        return format!("of the whole file the library says {verdict:?}\n");
    }
    if end.number != 0 {
        return String::new();
    }
    let arrived = match buffer.get(..end.arrived as usize) {
        Some(arrived) => arrived,
        None => return "a good file is longer than the buffer\n".to_string(),
    };
    let mut differences = String::new();
    let lines = lines_of(whole).unwrap_or_default();
    for k in asked_of(lines.len(), whole.len(), random) {
        if (library.recording)(arrived, k) != (library.recording)(whole, k) {
            differences += &format!("recording {k} is not that of the whole file\n");
        }
    }
    let (list_of, text_of) = (library.leaks, library.wkt);
    if pairs_in(whole) < 2_000 || random.once_in(20) {
        let list = list_of(arrived, room);
        let text = room[..list.length].to_vec();
        if list != list_of(whole, room) || !room.starts_with(&text) {
            differences += "the leak list is not that of the whole file\n";
        }
    }
    let id = if lines.is_empty() { 7 } else { lines[random.below(lines.len())].id };
    let written = text_of(arrived, id, room);
    let text = room[..written.length].to_vec();
    if written != text_of(whole, id, room) || !room.starts_with(&text) || written.number == ROOM_TOO_SHORT {
        differences += &format!("the text of {id} is not that of the whole file\n");
    }
    differences
}

/// All recordings of a short file and one that is not there; of a longer one three.
fn asked_of(recordings: usize, length: usize, random: &mut Random) -> Vec<usize> {
    const LONG: usize = 4_096;
    if length < LONG {
        return (0..=recordings).collect();
    }
    vec![random.below(recordings), recordings - 1, recordings]
}
