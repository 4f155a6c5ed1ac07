//! What is handed to the writer, good or spoiled.

use crate::files;
use crate::files::draft::{some_place, Triangle};
use crate::files::sets::trained_on;
use crate::footprint::stored::{ENTRY, FIRST_EDITION, TRAILER, TRIANGLE};
use crate::random::Random;
use crate::writer::{Handed, NUMBERS};

#[derive(Clone, Debug, Default, PartialEq, Eq)]
pub struct Draft {
    pub ids: Vec<u32>,
    pub counts: Vec<u32>,
    pub sets: Vec<u8>,
    /// The entries' last bytes.
    pub lasts: Vec<u8>,
    pub numbers: Vec<i32>,
}

/// The lists that a file of these recordings is written from, with training in the place of what is held
/// back, as no writer takes that.
impl From<files::draft::Draft> for Draft {
    fn from(file: files::draft::Draft) -> Draft {
        Draft {
            ids: file.table.iter().map(|line| line.id).collect(),
            counts: file.table.iter().map(|line| u32::from(line.count)).collect(),
            sets: file.table.iter().map(|line| trained_on(line.set)).collect(),
            lasts: file.table.iter().map(|line| line.last).collect(),
            numbers: file.triangles.concat(),
        }
    }
}

impl Draft {
    pub fn handed(&self) -> Handed<'_> {
        Handed {
            ids: &self.ids,
            counts: &self.counts,
            sets: &self.sets,
            lasts: &self.lasts,
            numbers: &self.numbers,
        }
    }

    /// Of ids, counts, sets and last bytes.
    pub fn lengths(&self) -> [usize; 4] {
        [self.ids.len(), self.counts.len(), self.sets.len(), self.lasts.len()]
    }

    /// Those that all four lists have.
    pub fn recordings(&self) -> usize {
        self.lengths().into_iter().min().unwrap_or(0)
    }

    /// Whole ones.
    pub fn triangles(&self) -> usize {
        self.numbers.len() / NUMBERS
    }

    pub fn triangle(&self, k: usize) -> Triangle {
        let numbers = &self.numbers[NUMBERS * k..][..NUMBERS];
        numbers.try_into().expect("a triangle has six numbers")
    }

    pub fn set_triangle(&mut self, k: usize, triangle: Triangle) {
        self.numbers[NUMBERS * k..][..NUMBERS].copy_from_slice(&triangle);
    }

    /// Bytes of the file that somebody would write who refuses nothing.
    pub fn length(&self) -> usize {
        TRIANGLE * self.triangles() + ENTRY * self.recordings() + TRAILER
    }

    /// One more recording, of one triangle; a test goes by the first edition.
    pub fn add(&mut self, id: u32, set: u8, triangle: Triangle) {
        self.ids.push(id);
        self.counts.push(1);
        self.sets.push(set);
        self.lasts.push(FIRST_EDITION);
        self.numbers.extend(triangle);
    }

    /// The first recording, the last, or any.
    pub fn some_recording(&self, random: &mut Random) -> Option<usize> {
        some_place(self.recordings(), random)
    }

    pub fn some_triangle(&self, random: &mut Random) -> Option<usize> {
        some_place(self.triangles(), random)
    }
}
