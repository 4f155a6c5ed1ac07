//! Every fault of a file, not only the one for which it is refused.

use super::shapes::cross;
use crate::footprint::stored::{id_of, triangle, Line, Trailer, ENTRY, TRAILER, TRIANGLE};
use crate::footprint::{in_range, Reason, Refused, MOST_BYTES, MOST_RECORDINGS};

/// In the order of the tests, so that the first of them is the verdict. Behind a wrong trailer they
/// are what a program would find that went on with it.
pub fn faults_in(file: &[u8]) -> Vec<Refused> {
    let mut faults = Vec::new();
    let mut look = |wrong: bool, reason: Reason, place: usize| {
        if wrong {
            faults.push(reason.at(place));
        }
    };
    look(file.len() < TRAILER || file.len() > MOST_BYTES, Reason::Length, 0);
    let trailer = match trailer_of(file) {
        Some(trailer) => trailer,
        None => return faults,
    };
    let at_trailer = file.len() - TRAILER;
    look(u64::from(trailer.length) != file.len() as u64, Reason::StoredLength, 0);
    look(trailer.recordings > MOST_RECORDINGS, Reason::TooManyRecordings, at_trailer);
    look(trailer.end() != file.len() as u64, Reason::TablePlace, at_trailer);
    // A table that is not in the file has neither entries nor an end of triangles.
    let (place, entries) = (trailer.table as usize, trailer.recordings.min(400) as usize);
    let table = file.get(place..).and_then(|rest| rest.get(..ENTRY * entries));
    if let Some(table) = table {
        let end = look_at_entries(table, place, &mut look);
        let reason = if entries == 0 { Reason::TableOfNone } else { Reason::EndOfTriangles };
        look(end != place as u64, reason, place);
    }
    look_at_triangles(&file[..place.min(at_trailer)], &mut look);
    faults
}

pub fn trailer_of(file: &[u8]) -> Option<Trailer> {
    let place = file.len().checked_sub(TRAILER)?;
    Some(Trailer::read(&file[place..]))
}

type Look<'a> = &'a mut dyn FnMut(bool, Reason, usize);

/// The end of the last entry's triangles, wherever they begin.
fn look_at_entries(table: &[u8], table_place: usize, look: Look) -> u64 {
    let mut end = 0;
    let mut ids = Vec::new();
    for (k, bytes) in table.chunks_exact(ENTRY).enumerate() {
        let (line, place) = (Line::read(bytes), table_place + ENTRY * k);
        look(line.count == 0, Reason::NoTriangles, place);
        look(line.set > 2, Reason::Set, place);
        look(line.last > 1, Reason::LastByte, place);
        look(line.last == 1 && line.set != 1, Reason::EditionOfNoTest, place);
        look(u64::from(line.first) != end, Reason::First, place);
        look(ids.contains(&id_of(bytes)), Reason::Id, place);
        ids.push(id_of(bytes));
        end = u64::from(line.first) + line.bytes();
    }
    end
}

fn look_at_triangles(triangles: &[u8], look: Look) {
    for (k, bytes) in triangles.chunks_exact(TRIANGLE).enumerate() {
        let values = triangle(bytes);
        look(!values.into_iter().all(in_range), Reason::Range, TRIANGLE * k);
        look(cross(values) == 0, Reason::ZeroArea, TRIANGLE * k);
    }
}
