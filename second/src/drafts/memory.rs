//! A draft lent to the library, with the room for its file: six pieces of memory between walls.

use super::calls::Call;
use super::draft::Draft;
use super::round_trips::Side;
use super::shown::text_of;
use crate::library::{At, Lists};
use crate::pages::{Lent, Pages};
use crate::random::Random;
use crate::writer::{write, Written};

/// A longer file is asked for fewer of its recordings: each time it is judged anew.
pub const LONG_FILE: usize = 8_192;

/// The library's writer, handed in so that programs without the library can do without it.
pub type WriteAt = unsafe fn(Lists, *mut u8, usize) -> Written;

pub struct Memory {
    library: WriteAt,
    /// Whoever reads what was written.
    sides: &'static [Side],
    for_ids: Pages,
    for_counts: Pages,
    for_sets: Pages,
    for_lasts: Pages,
    for_numbers: Pages,
    for_rooms: Pages,
}

impl Memory {
    /// The longest draft has 2.4 million bytes of numbers, and a room for all of its file is lent as well.
    pub fn new(library: WriteAt, sides: &'static [Side]) -> Self {
        Memory {
            library,
            sides,
            for_ids: Pages::default(),
            for_counts: Pages::default(),
            for_sets: Pages::default(),
            for_lasts: Pages::default(),
            for_numbers: Pages::of(3),
            for_rooms: Pages::of(3),
        }
    }

    /// The lists are lent once and the rooms in turn, each at any kind of place. The first file that is
    /// written is read as well.
    pub fn compare(&mut self, draft: &Draft, calls: &[Call], random: &mut Random) -> Result<(), String> {
        let lent = LentDraft {
            draft,
            ids: self.for_ids.lend_list(&draft.ids, random),
            counts: self.for_counts.lend_list(&draft.counts, random),
            sets: self.for_sets.lend_list(&draft.sets, random),
            lasts: self.for_lasts.lend_list(&draft.lasts, random),
            numbers: self.for_numbers.lend_list(&draft.numbers, random),
        };
        let mut unread = true;
        for call in calls {
            let mut expected = call.fill.bytes(call.room);
            let room = self.for_rooms.lend(&expected, random);
            let of_library = lent.written_by(self.library, call, &room);
            let of_second = write(draft.handed(), &mut expected);
            let mut differences = differing(of_library, of_second, &room, &expected);
            if differences.is_empty() && of_library.number == 0 && unread {
                unread = false;
                let (file, asked) = (&room.contents()[..of_library.length], asked_of(draft, random));
                let reports = self.sides.iter().filter_map(|side| side.read_back(file, draft, &asked).err());
                differences = reports.collect();
            }
            if !differences.is_empty() {
                return Err(format!("{call:?}\n{differences}{}", text_of(draft)));
            }
        }
        let differences = lent.differences();
        if differences.is_empty() {
            return Ok(());
        }
        Err(differences + &text_of(draft))
    }
}

struct LentDraft<'a> {
    draft: &'a Draft,
    ids: Lent<'a>,
    counts: Lent<'a>,
    sets: Lent<'a>,
    lasts: Lent<'a>,
    numbers: Lent<'a>,
}

impl LentDraft<'_> {
    fn written_by(&self, library: WriteAt, call: &Call, room: &Lent) -> Written {
        let Draft { ids, counts, sets, lasts, numbers } = self.draft;
        let room_at = if call.room == 0 && call.null[5] { std::ptr::null_mut() } else { room.start };
        let lists = Lists {
            ids: at(&self.ids, ids, call.null[0]),
            counts: at(&self.counts, counts, call.null[1]),
            sets: at(&self.sets, sets, call.null[2]),
            lasts: at(&self.lasts, lasts, call.null[3]),
            numbers: at(&self.numbers, numbers, call.null[4]),
        };
        // All are lent as a whole, or empty, and from different memory.
        unsafe { library(lists, room_at, call.room) }
    }

    /// From what the lists were when they were lent.
    fn differences(&self) -> String {
        let Draft { ids, counts, sets, lasts, numbers } = self.draft;
        let mut differences = String::new();
        for (name, lent, same) in [
            ("ids", &self.ids, self.ids.holds(ids)),
            ("counts", &self.counts, self.counts.holds(counts)),
            ("sets", &self.sets, self.sets.holds(sets)),
            ("lasts", &self.lasts, self.lasts.holds(lasts)),
            ("numbers", &self.numbers, self.numbers.holds(numbers)),
        ] {
            if !same {
                differences += &format!("the {name} were written to\n");
            }
            if !lent.has_its_guards() {
                differences += &format!("the memory around the {name} was written to\n");
            }
        }
        differences
    }
}

fn at<T>(lent: &Lent, list: &[T], null: bool) -> At<T> {
    (if list.is_empty() && null { std::ptr::null() } else { lent.start.cast() }, list.len())
}

fn differing(of_library: Written, of_second: Written, room: &Lent, expected: &[u8]) -> String {
    let mut differences = String::new();
    if of_library != of_second {
        differences += &format!("answer\n  library {of_library:?}\n  second  {of_second:?}\n");
    }
    if !room.holds(expected) {
        differences += &contents(room.contents(), expected);
    }
    if !room.has_its_guards() {
        differences += "the memory around the room was written to\n";
    }
    differences
}

/// What the two rooms hold from a little before the first byte that differs.
fn contents(of_library: &[u8], of_second: &[u8]) -> String {
    let differs = |k: &usize| of_library[*k] != of_second[*k];
    let first = (0..of_second.len()).find(differs).unwrap_or(0);
    let shown =
        |room: &[u8]| -> Vec<u8> { room.iter().skip(first.saturating_sub(4)).take(24).copied().collect() };
    let (library, second) = (shown(of_library), shown(of_second));
    format!("room, byte {first} and those around it\n  library {library:?}\n  second  {second:?}\n")
}

/// All of a short file's recordings; of a longer one's the first, the last, and one of them all.
fn asked_of(draft: &Draft, random: &mut Random) -> Vec<usize> {
    let recordings = draft.recordings();
    if recordings == 0 || draft.length() <= LONG_FILE {
        return (0..recordings).collect();
    }
    vec![0, random.below(recordings), recordings - 1]
}
