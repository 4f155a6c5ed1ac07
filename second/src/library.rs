//! The library under test, called as a C program would call it.

use crate::arrival::{Arrival, State};
use crate::corners::Corner;
use crate::decision::Decision;
use crate::footprint::{Entry, Verdict};
use crate::leaks::List;
use crate::writer::{Handed, Written};

/// As the library hands it back. Flags stay bytes until somebody has looked at them, because a
/// byte other than 0 or 1 is no bool.
#[repr(C)]
#[derive(Clone, Copy, Debug)]
pub struct Returned {
    pub number: u32,
    pub n: u32,
    pub area: f64,
    pub u_in_v: [u8; 3],
    pub v_in_u: [u8; 3],
    pub neighbour: [u8; 3],
}

extern "C" {
    fn meskelow_intersect(values: *const f64, values_len: usize, room: *mut f64, room_len: usize)
        -> Returned;
    fn meskelow_decide(values: *const f64, values_len: usize) -> Decision;
    fn meskelow_corner_at(values: *const f64, values_len: usize, place: usize) -> Corner;
    fn meskelow_check(file: *const u8, file_len: usize) -> Verdict;
    fn meskelow_recording(file: *const u8, file_len: usize, k: usize) -> Entry;
    fn meskelow_leaks(file: *const u8, file_len: usize, room: *mut u8, room_len: usize) -> List;
    fn meskelow_write(
        ids: *const u32,
        ids_len: usize,
        counts: *const u32,
        counts_len: usize,
        sets: *const u8,
        sets_len: usize,
        lasts: *const u8,
        lasts_len: usize,
        numbers: *const i32,
        numbers_len: usize,
        room: *mut u8,
        room_len: usize,
    ) -> Written;
    fn meskelow_wkt(file: *const u8, file_len: usize, id: u32, room: *mut u8, room_len: usize) -> Written;
    fn meskelow_piece(
        arrived: u32,
        ended: u32,
        piece: *const u8,
        piece_len: usize,
        buffer: *mut u8,
        buffer_len: usize,
    ) -> Arrival;
    fn meskelow_end(arrived: u32, ended: u32, buffer: *const u8, buffer_len: usize) -> Arrival;
}

#[inline]
pub fn intersect(values: &[f64], room: &mut [f64]) -> Returned {
    // Both are true slices that do not overlap, which is all that the interface asks.
    unsafe { meskelow_intersect(values.as_ptr(), values.len(), room.as_mut_ptr(), room.len()) }
}

/// The same with NULL in the place of a slice of length 0, which the interface allows.
pub fn intersect_with_null(values: &[f64], room: &mut [f64]) -> Returned {
    let input = if values.is_empty() { std::ptr::null() } else { values.as_ptr() };
    let output = if room.is_empty() { std::ptr::null_mut() } else { room.as_mut_ptr() };
    unsafe { meskelow_intersect(input, values.len(), output, room.len()) }
}

pub fn decide(values: &[f64]) -> Decision {
    unsafe { meskelow_decide(values.as_ptr(), values.len()) }
}

/// The same with NULL in the place of an empty slice.
pub fn decide_with_null(values: &[f64]) -> Decision {
    let input = if values.is_empty() { std::ptr::null() } else { values.as_ptr() };
    unsafe { meskelow_decide(input, values.len()) }
}

#[inline]
pub fn corner_at(values: &[f64], place: usize) -> Corner {
    unsafe { meskelow_corner_at(values.as_ptr(), values.len(), place) }
}

/// The same with NULL in the place of an empty slice.
pub fn corner_at_with_null(values: &[f64], place: usize) -> Corner {
    let input = if values.is_empty() { std::ptr::null() } else { values.as_ptr() };
    unsafe { meskelow_corner_at(input, values.len(), place) }
}

#[inline]
pub fn check(file: &[u8]) -> Verdict {
    // A true slice, which is all that the interface asks.
    unsafe { meskelow_check(file.as_ptr(), file.len()) }
}

pub fn recording(file: &[u8], k: usize) -> Entry {
    unsafe { meskelow_recording(file.as_ptr(), file.len(), k) }
}

/// For a file that is lent by pointer, so that nothing is promised about it to the compiler.
///
/// # Safety
/// There are `length` bytes at `start`, or it is NULL and `length` 0.
pub unsafe fn check_at(start: *const u8, length: usize) -> Verdict {
    meskelow_check(start, length)
}

/// # Safety
/// As for `check_at`.
pub unsafe fn recording_at(start: *const u8, length: usize, k: usize) -> Entry {
    meskelow_recording(start, length, k)
}

pub fn leaks(file: &[u8], room: &mut [u8]) -> List {
    unsafe { meskelow_leaks(file.as_ptr(), file.len(), room.as_mut_ptr(), room.len()) }
}

/// # Safety
/// As for `check_at`, and the same for the room, which may be written to. The two do not overlap.
pub unsafe fn leaks_at(file: *const u8, file_len: usize, room: *mut u8, room_len: usize) -> List {
    meskelow_leaks(file, file_len, room, room_len)
}

/// Where a list begins, and its length.
pub type At<T> = (*const T, usize);

/// All that a file is written from, wherever it stands.
#[derive(Clone, Copy)]
pub struct Lists {
    pub ids: At<u32>,
    pub counts: At<u32>,
    pub sets: At<u8>,
    pub lasts: At<u8>,
    pub numbers: At<i32>,
}

fn at<T>(list: &[T]) -> At<T> {
    (list.as_ptr(), list.len())
}

/// NULL for an empty list.
fn at_or_null<T>(list: &[T]) -> At<T> {
    (if list.is_empty() { std::ptr::null() } else { list.as_ptr() }, list.len())
}

pub fn write(handed: Handed, room: &mut [u8]) -> Written {
    let Handed { ids, counts, sets, lasts, numbers } = handed;
    let lists =
        Lists { ids: at(ids), counts: at(counts), sets: at(sets), lasts: at(lasts), numbers: at(numbers) };
    // True slices, and the one that is written to overlaps no other.
    unsafe { write_at(lists, room.as_mut_ptr(), room.len()) }
}

/// The same with NULL in the place of each list that is empty, and of an empty room.
pub fn write_with_null(handed: Handed, room: &mut [u8]) -> Written {
    let Handed { ids, counts, sets, lasts, numbers } = handed;
    let output = if room.is_empty() { std::ptr::null_mut() } else { room.as_mut_ptr() };
    let lists = Lists {
        ids: at_or_null(ids),
        counts: at_or_null(counts),
        sets: at_or_null(sets),
        lasts: at_or_null(lasts),
        numbers: at_or_null(numbers),
    };
    unsafe { write_at(lists, output, room.len()) }
}

/// # Safety
/// As for `leaks_at`, and lists of larger numbers begin where C allows such numbers to stand.
pub unsafe fn write_at(lists: Lists, room: *mut u8, room_len: usize) -> Written {
    let Lists { ids, counts, sets, lasts, numbers } = lists;
    meskelow_write(
        ids.0, ids.1, counts.0, counts.1, sets.0, sets.1, lasts.0, lasts.1, numbers.0, numbers.1, room,
        room_len,
    )
}

pub fn wkt(file: &[u8], id: u32, room: &mut [u8]) -> Written {
    unsafe { meskelow_wkt(file.as_ptr(), file.len(), id, room.as_mut_ptr(), room.len()) }
}

/// # Safety
/// As for `leaks_at`.
pub unsafe fn wkt_at(file: *const u8, file_len: usize, id: u32, room: *mut u8, room_len: usize) -> Written {
    meskelow_wkt(file, file_len, id, room, room_len)
}

pub fn piece(state: State, piece: &[u8], buffer: &mut [u8]) -> Arrival {
    // Two true slices that do not overlap.
    unsafe { piece_at(state, piece.as_ptr(), piece.len(), buffer.as_mut_ptr(), buffer.len()) }
}

/// # Safety
/// As for `leaks_at`, with the piece in the place of the file and the buffer in that of the room.
pub unsafe fn piece_at(
    state: State,
    piece: *const u8,
    piece_len: usize,
    buffer: *mut u8,
    buffer_len: usize,
) -> Arrival {
    meskelow_piece(state.arrived, state.ended, piece, piece_len, buffer, buffer_len)
}

pub fn end(state: State, buffer: &[u8]) -> Arrival {
    unsafe { end_at(state, buffer.as_ptr(), buffer.len()) }
}

/// # Safety
/// As for `check_at`.
pub unsafe fn end_at(state: State, buffer: *const u8, buffer_len: usize) -> Arrival {
    meskelow_end(state.arrived, state.ended, buffer, buffer_len)
}
