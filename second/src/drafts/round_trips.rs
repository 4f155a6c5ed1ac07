//! There and back: what is written is read, and what is read is written again, or refused if something in it
//! is held back.

use super::draft::Draft;
use crate::files::{self, Class};
use crate::footprint::stored::{HELD_BACK, SECOND_EDITION, TEST, TRIANGLE};
use crate::footprint::{judge, Entry, Verdict};
use crate::lists;
use crate::random::Random;
use crate::tally::Row;
use crate::writer::{Handed, Written, NUMBERS};

/// A reader and a writer that belong together.
pub struct Side {
    pub name: &'static str,
    pub check: fn(&[u8]) -> Verdict,
    pub recording: fn(&[u8], usize) -> Entry,
    pub write: fn(Handed, &mut [u8]) -> Written,
}

impl Side {
    /// The reader must accept what was written, and get from it what was handed in: of some recordings
    /// every field, and their triangles.
    pub fn read_back(&self, file: &[u8], draft: &Draft, asked: &[usize]) -> Result<(), String> {
        let verdict = (self.check)(file);
        if verdict != Verdict::default() {
            return Err(format!("the reader of the {} says {verdict:?} of what is written\n", self.name));
        }
        for &k in asked {
            let before: usize = draft.counts[..k].iter().map(|count| *count as usize).sum();
            let expected = Entry {
                number: 0,
                place: 0,
                id: draft.ids[k],
                first: (TRIANGLE * before) as u32,
                count: draft.counts[k],
                set: u32::from(draft.sets[k]),
                last: u32::from(draft.lasts[k]),
            };
            let entry = (self.recording)(file, k);
            let numbers = &draft.numbers[NUMBERS * before..][..NUMBERS * draft.counts[k] as usize];
            if entry != expected || numbers_of(entry, file).as_deref() != Some(numbers) {
                return Err(format!("the reader of the {} gets recording {k} as {entry:?}\n", self.name));
            }
        }
        Ok(())
    }

    /// What the reader gets from a good file and hands to the writer must come back as the very bytes. If a
    /// recording is held back it must be refused, and the room left as it was.
    pub fn write_again(&self, file: &[u8]) -> Result<Draft, String> {
        let draft = self.got_from(file).ok_or(format!("the reader of the {} does not read it", self.name))?;
        // Another byte at every place.
        let before: Vec<u8> = file.iter().map(|byte| !byte).collect();
        let mut room = before.clone();
        let written = (self.write)(draft.handed(), &mut room);
        let (expected, contents) = if draft.sets.contains(&HELD_BACK) {
            (Written { number: 14, place: 0, length: 0 }, &before[..])
        } else {
            (Written { number: 0, place: 0, length: file.len() }, file)
        };
        if written != expected || room != contents {
            return Err(format!("the writer of the {} writes something else: {written:?}", self.name));
        }
        Ok(draft)
    }

    /// Every recording up to the first that is not there.
    fn got_from(&self, file: &[u8]) -> Option<Draft> {
        let mut draft = Draft::default();
        loop {
            let entry = (self.recording)(file, draft.ids.len());
            match entry.number {
                0 => {
                    draft.ids.push(entry.id);
                    draft.counts.push(entry.count);
                    draft.sets.push(u8::try_from(entry.set).ok()?);
                    draft.lasts.push(u8::try_from(entry.last).ok()?);
                    draft.numbers.extend(numbers_of(entry, file)?);
                }
                10 => return Some(draft),
                _ => return None,
            }
        }
    }
}

/// A recording's part of the file, number by number; None if the file does not reach so far.
fn numbers_of(entry: Entry, file: &[u8]) -> Option<Vec<i32>> {
    let part = file.get(entry.first as usize..)?.get(..TRIANGLE * entry.count as usize)?;
    let number = |bytes: &[u8]| i32::from_le_bytes([bytes[0], bytes[1], bytes[2], bytes[3]]);
    Some(part.chunks_exact(4).map(number).collect())
}

/// Where files are taken from to be written again: the classes of the other comparisons.
pub const SOURCES: [(&str, &[Class]); 2] = [
    ("from the comparison of files", &files::CLASSES),
    ("from the comparison of leak lists", &lists::CLASSES),
];

/// A good one, of any class that has such.
pub fn file_from(source: usize, random: &mut Random) -> Vec<u8> {
    let classes = SOURCES[source].1;
    loop {
        let file = classes[random.below(classes.len())].file(random);
        if judge(&file).number == 0 {
            return file;
        }
    }
}

type Event = (&'static str, fn(&Draft) -> bool);

/// Looked at in files that come back as the very bytes.
const WRITTEN: [Event; 15] = [
    ("no recordings", |d| d.ids.is_empty()),
    ("1 recording", |d| d.ids.len() == 1),
    ("64 recordings", |d| d.ids.len() == 64),
    ("sets 0 and 1 among them", |d| d.sets.contains(&0) && d.sets.contains(&1)),
    ("set 0 alone", |d| !d.sets.is_empty() && d.sets.iter().all(|set| *set == 0)),
    ("set 1 alone", |d| !d.sets.is_empty() && d.sets.iter().all(|set| *set == 1)),
    ("a count over 255", |d| d.counts.iter().any(|count| *count > 255)),
    ("65,532 bytes", |d| d.length() == 65_532),
    ("last byte 0 in every entry", |d| second_edition_in(d) == 0),
    ("last byte 1 of the only recording", |d| d.lasts == [SECOND_EDITION]),
    ("last byte 1 of the first of several", |d| d.lasts.len() > 1 && d.lasts[0] == SECOND_EDITION),
    ("last byte 1 of the last of several", |d| d.lasts.len() > 1 && d.lasts.last() == Some(&SECOND_EDITION)),
    ("last byte 1 of all of several tests", |d| {
        second_edition_in(d) > 1 && second_edition_in(d) == tests_in(d)
    }),
    ("last bytes 0 and 1 of tests", |d| second_edition_in(d) > 0 && second_edition_in(d) < tests_in(d)),
    ("last byte 1 among 64 recordings", |d| d.ids.len() == 64 && second_edition_in(d) > 0),
];

/// Looked at in files that are refused, as something is held back.
const REFUSED: [Event; 10] = [
    ("the only recording", |d| d.sets == [HELD_BACK]),
    ("one of several recordings", |d| d.sets.len() > 1 && held_back_in(d) == 1),
    ("the first alone of several", |d| is_alone(d, 0)),
    ("the last alone of several", |d| is_alone(d, d.sets.len() - 1)),
    ("several recordings", |d| held_back_in(d) > 1),
    ("all of several recordings", |d| d.sets.len() > 1 && held_back_in(d) == d.sets.len()),
    ("64 recordings", |d| d.ids.len() == 64),
    ("a count over 255", |d| d.counts.iter().any(|count| *count > 255)),
    ("65,532 bytes", |d| d.length() == 65_532),
    ("a last byte of 1 beside it", |d| second_edition_in(d) > 0),
];

fn second_edition_in(draft: &Draft) -> usize {
    draft.lasts.iter().filter(|last| **last == SECOND_EDITION).count()
}

fn tests_in(draft: &Draft) -> usize {
    draft.sets.iter().filter(|set| **set == TEST).count()
}

fn held_back_in(draft: &Draft) -> usize {
    draft.sets.iter().filter(|set| **set == HELD_BACK).count()
}

fn is_alone(draft: &Draft, entry: usize) -> bool {
    draft.sets.len() > 1 && held_back_in(draft) == 1 && draft.sets[entry] == HELD_BACK
}

/// How often there was what in files that were to be written again, and first, where they are from: those
/// that came back, then those that were refused. The longest take so long that few must do.
pub fn rows() -> Vec<Row> {
    let of = |table: &'static str, events: &[Event]| -> Vec<Row> {
        let names = SOURCES.iter().map(|source| source.0).chain(events.iter().map(|event| event.0));
        names.map(|name| Row { table, name: name.to_string(), count: 0 }).collect()
    };
    let mut rows = of("written again (5 of each will do)", &WRITTEN);
    rows.extend(of("held back, not written again (5 of each will do)", &REFUSED));
    rows
}

pub const ENOUGH: usize = 5;

pub fn count(rows: &mut [Row], source: usize, draft: &Draft) {
    let (written, refused) = rows.split_at_mut(SOURCES.len() + WRITTEN.len());
    let (rows, events) = match held_back_in(draft) {
        0 => (written, &WRITTEN[..]),
        _ => (refused, &REFUSED[..]),
    };
    rows[source].count += 1;
    for (row, (_, test)) in rows[SOURCES.len()..].iter_mut().zip(events) {
        row.count += usize::from(test(draft));
    }
}

#[cfg(test)]
mod tests {
    use super::*;
    use crate::files::sets::as_training;
    use crate::footprint::recording;
    use crate::writer::write;

    #[test]
    fn there_and_back() {
        let side = Side { name: "second program", check: judge, recording, write };
        let mut random = Random::new(8);
        for source in (0..SOURCES.len()).cycle().take(200) {
            let file = file_from(source, &mut random);
            for file in [as_training(&file), file] {
                let draft = side.write_again(&file).expect("the very bytes, or 14");
                let all: Vec<usize> = (0..draft.ids.len()).collect();
                side.read_back(&file, &draft, &all).expect("the same recordings");
            }
        }
    }
}
