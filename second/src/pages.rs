//! Memory to lend a file, a list or a room from, between pages that nobody may touch.

use std::os::raw::{c_int, c_void};

use crate::random::Random;

/// Enough for the longest file and for the rooms of most comparisons. All sizes here suit any size of a page.
const ROOM: usize = 1 << 20;
const WALL: usize = 1 << 16;
/// How many bytes on either side of what is lent are looked at, as far as there are any.
const GUARD: usize = 64;

extern "C" {
    fn mmap(at: *mut c_void, length: usize, rights: c_int, flags: c_int, of: c_int, from: i64)
        -> *mut c_void;
    fn mprotect(at: *mut c_void, length: usize, rights: c_int) -> c_int;
}

const READ_AND_WRITE: c_int = 3;
/// Private, of no file, and with nothing set aside for it before it is touched.
const FLAGS: c_int = 0x4022;

/// Pages of zeros; no rights at all to any of them but those between the walls.
fn walled(length: usize) -> *mut u8 {
    // A new mapping at a place of the system's choice, of which only the inside is opened.
    unsafe {
        let start = mmap(std::ptr::null_mut(), length + 2 * WALL, 0, FLAGS, -1, 0);
        assert!(start as isize != -1, "the system gives no memory");
        let inside = start.cast::<u8>().add(WALL);
        assert!(mprotect(inside.cast(), length, READ_AND_WRITE) == 0, "the system opens no memory");
        inside
    }
}

/// Kept for the whole run.
pub struct Pages {
    start: *mut u8,
    length: usize,
}

/// A file, a list or a room lent by pointer, as a C program would.
pub struct Lent<'a> {
    pub start: *mut u8,
    area: &'a Pages,
    place: usize,
    length: usize,
}

impl Default for Pages {
    fn default() -> Self {
        Pages::of(1)
    }
}

impl Pages {
    /// So many times as much as by default.
    pub fn of(times: usize) -> Self {
        Pages { start: walled(times * ROOM), length: times * ROOM }
    }

    /// Against the wall behind it or the one before it, or between guards at any address.
    pub fn lend(&mut self, contents: &[u8], random: &mut Random) -> Lent<'_> {
        self.lend_list(contents, random)
    }

    /// The same for a list of whole numbers, which C wants at a multiple of their size.
    pub fn lend_list<T: Copy + Into<i64>>(&mut self, list: &[T], random: &mut Random) -> Lent<'_> {
        let contents = bytes_of(list);
        let (length, size) = (contents.len(), std::mem::size_of::<T>());
        assert!(length + 4 * GUARD <= self.length);
        let place = match random.below(4) {
            0 | 1 => self.length - length,
            2 => 0,
            _ => GUARD + random.below(GUARD) / size * size,
        };
        let lent = Lent { start: self.start.wrapping_add(place), area: self, place, length };
        let (from, to) = lent.guarded();
        // The room is this object's own, and no slice of it is alive.
        let around = unsafe { std::slice::from_raw_parts_mut(lent.area.start.add(from), to - from) };
        let (before, rest) = around.split_at_mut(place - from);
        let (within, behind) = rest.split_at_mut(length);
        before.iter_mut().zip(from..).for_each(|(byte, k)| *byte = guard(k));
        within.copy_from_slice(contents);
        behind.iter_mut().zip(place + length..).for_each(|(byte, k)| *byte = guard(k));
        lent
    }
}

impl Lent<'_> {
    /// From where to where there are guards, what is lent between them.
    fn guarded(&self) -> (usize, usize) {
        (self.place.saturating_sub(GUARD), (self.place + self.length + GUARD).min(self.area.length))
    }

    fn bytes(&self, from: usize, to: usize) -> &[u8] {
        // As in `lend`; whoever was lent it is done with it.
        unsafe { std::slice::from_raw_parts(self.area.start.add(from), to - from) }
    }

    pub fn contents(&self) -> &[u8] {
        self.bytes(self.place, self.place + self.length)
    }

    pub fn holds<T: Copy + Into<i64>>(&self, expected: &[T]) -> bool {
        self.contents() == bytes_of(expected)
    }

    pub fn has_its_guards(&self) -> bool {
        let (from, to) = self.guarded();
        let end = self.place + self.length;
        let as_made = |from, to| self.bytes(from, to).iter().zip(from..).all(|(byte, k)| *byte == guard(k));
        as_made(from, self.place) && as_made(end, to)
    }
}

/// A list as it stands in memory.
fn bytes_of<T: Copy + Into<i64>>(list: &[T]) -> &[u8] {
    // Whole numbers have no bytes but their own, and every byte is one.
    unsafe { std::slice::from_raw_parts(list.as_ptr().cast(), std::mem::size_of_val(list)) }
}

/// No two neighbours alike, and no zeros.
fn guard(place: usize) -> u8 {
    (place % 251) as u8 + 1
}

/// A file of more bytes than 32 bits can count, `front` and then zeros. It takes no memory but
/// what is touched of it.
pub fn endless(front: &[u8]) -> &'static [u8] {
    let (start, length) = endless_room(front);
    // The mapping is never given back, and nobody else knows of it.
    unsafe { std::slice::from_raw_parts(start, length) }
}

/// The same, to be written to: where it begins, and its length.
pub fn endless_room(front: &[u8]) -> (*mut u8, usize) {
    let length = (1u64 << 32) as usize + front.len();
    let start = walled(length + WALL - length % WALL);
    unsafe { std::ptr::copy_nonoverlapping(front.as_ptr(), start, front.len()) };
    (start, length)
}
