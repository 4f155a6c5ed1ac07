//! A file lent to the library, with the room for a text: two pieces of memory between walls.

use super::asked::Asked;
use super::calls::Call;
use crate::files::shown::text_of;
use crate::pages::{Lent, Pages};
use crate::random::Random;
use crate::wkt::wkt;
use crate::writer::Written;

/// The library's function, handed in so that programs without the library can do without it.
pub type WktAt = unsafe fn(*const u8, usize, u32, *mut u8, usize) -> Written;

pub struct Memory {
    library: WktAt,
    for_files: Pages,
    for_rooms: Pages,
}

impl Memory {
    pub fn new(library: WktAt) -> Self {
        Memory { library, for_files: Pages::default(), for_rooms: Pages::default() }
    }

    /// The file is lent once and the rooms in turn, each at any kind of place.
    pub fn compare(&mut self, asked: &Asked, calls: &[Call], random: &mut Random) -> Result<(), String> {
        let file = asked.of.file;
        if !asked.is_read_back() {
            let text = String::from_utf8_lossy(&asked.text);
            return Err(format!("the second program's text does not show the triangles\n{text}\n"));
        }
        let lent = self.for_files.lend(file, random);
        for call in calls {
            let mut expected = call.fill.bytes(call.room);
            let room = self.for_rooms.lend(&expected, random);
            let file_at = at(&lent, file.is_empty() && call.null[0]);
            let room_at = at(&room, call.room == 0 && call.null[1]);
            // Both are lent as a whole, or empty, and from different memory.
            let of_library = unsafe { (self.library)(file_at, file.len(), asked.id, room_at, call.room) };
            let of_second = wkt(file, asked.id, &mut expected);
            let mut differences = differing(of_library, of_second, &room, &expected);
            if !lent.holds(file) {
                differences += "the file was written to\n";
            }
            if !lent.has_its_guards() {
                differences += "the memory around the file was written to\n";
            }
            if !differences.is_empty() {
                return Err(format!("id {}, {call:?}\n{differences}{}", asked.id, text_of(file)));
            }
        }
        Ok(())
    }
}

fn at(lent: &Lent, null: bool) -> *mut u8 {
    if null {
        std::ptr::null_mut()
    } else {
        lent.start
    }
}

fn differing(of_library: Written, of_second: Written, room: &Lent, expected: &[u8]) -> String {
    let mut differences = String::new();
    if of_library != of_second {
        differences += &format!("answer\n  library {of_library:?}\n  second  {of_second:?}\n");
    }
    if !room.holds(expected) {
        differences += &contents(room.contents(), expected);
    }
    if !room.has_its_guards() {
        differences += "the memory around the room was written to\n";
    }
    differences
}

/// What the two rooms hold from a little before the first byte that differs.
fn contents(of_library: &[u8], of_second: &[u8]) -> String {
    let differs = |k: &usize| of_library[*k] != of_second[*k];
    let first = (0..of_second.len()).find(differs).unwrap_or(0);
    let shown = |room: &[u8]| {
        let bytes: Vec<u8> = room.iter().skip(first.saturating_sub(40)).take(120).copied().collect();
        String::from_utf8_lossy(&bytes).into_owned()
    };
    let (library, second) = (shown(of_library), shown(of_second));
    format!("room, byte {first} and those around it\n  library {library:?}\n  second  {second:?}\n")
}
