//! A file while it is being made: its fields by name, good or spoiled, and the bytes they give.

use crate::footprint::stored::{Line, Trailer, ENTRY, TRAILER, TRIANGLE};
use crate::random::Random;

pub type Triangle = [i32; 6];

#[derive(Clone, Debug)]
pub struct Draft {
    pub triangles: Vec<Triangle>,
    /// What stands between the last triangle and the table: nothing in a good file.
    pub between: Vec<u8>,
    pub table: Vec<Line>,
    pub trailer: Trailer,
}

impl Draft {
    /// A good file if the ids are all different, the counts not zero, the triangles good, and
    /// neither the recordings nor the bytes too many.
    pub fn of(ids: &[u32], counts: &[u16], sets: &[u8], triangles: Vec<Triangle>) -> Draft {
        let line = |k: usize| Line { id: ids[k], first: 0, count: counts[k], set: sets[k], last: 0 };
        let table: Vec<Line> = (0..ids.len()).map(line).collect();
        let place = (TRIANGLE * triangles.len()) as u32;
        let trailer = Trailer { table: place, recordings: table.len() as u32, length: 0 };
        let mut draft = Draft { triangles, between: Vec::new(), table, trailer };
        draft.trailer.length = draft.length();
        draft.set_firsts();
        draft
    }

    pub fn length(&self) -> u32 {
        let before = TRIANGLE * self.triangles.len() + self.between.len();
        (before + ENTRY * self.table.len() + TRAILER) as u32
    }

    /// Every entry's first triangle where the counts of the entries before it say.
    pub fn set_firsts(&mut self) {
        let mut end = 0u32;
        for line in &mut self.table {
            line.first = end;
            end = end.wrapping_add(line.bytes() as u32);
        }
    }

    /// Puts bytes before the table, and moves what the trailer says along with it.
    pub fn insert(&mut self, bytes: &[u8]) {
        self.between.extend(bytes);
        self.trailer.table = self.trailer.table.wrapping_add(bytes.len() as u32);
        self.trailer.length = self.trailer.length.wrapping_add(bytes.len() as u32);
    }

    /// Takes an entry's triangles away, so that nothing but its count is wrong.
    pub fn empty(&mut self, k: usize) {
        let before: usize = self.table[..k].iter().map(|line| usize::from(line.count)).sum();
        let gone = usize::from(self.table[k].count);
        if before + gone > self.triangles.len() {
            return;
        }
        self.triangles.drain(before..before + gone);
        let bytes = (TRIANGLE * gone) as u32;
        self.table[k].count = 0;
        for line in &mut self.table[k + 1..] {
            line.first = line.first.wrapping_sub(bytes);
        }
        self.trailer.table = self.trailer.table.wrapping_sub(bytes);
        self.trailer.length = self.trailer.length.wrapping_sub(bytes);
    }

    /// The first entry, the last, or any.
    pub fn some_entry(&self, random: &mut Random) -> Option<usize> {
        some_place(self.table.len(), random)
    }

    pub fn some_triangle(&self, random: &mut Random) -> Option<usize> {
        some_place(self.triangles.len(), random)
    }

    pub fn bytes(&self) -> Vec<u8> {
        let mut file = Vec::with_capacity(self.length() as usize);
        for triangle in &self.triangles {
            triangle.iter().for_each(|value| file.extend(value.to_le_bytes()));
        }
        file.extend(&self.between);
        for line in &self.table {
            file.extend(line.id.to_le_bytes());
            file.extend(line.first.to_le_bytes());
            file.extend(line.count.to_le_bytes());
            file.extend([line.set, line.last]);
        }
        for value in [self.trailer.table, self.trailer.recordings, self.trailer.length] {
            file.extend(value.to_le_bytes());
        }
        file
    }
}

/// The first place of so many, the last, or any.
pub fn some_place(count: usize, random: &mut Random) -> Option<usize> {
    match (count, random.below(3)) {
        (0, _) => None,
        (_, 0) => Some(0),
        (_, 1) => Some(count - 1),
        _ => Some(random.below(count)),
    }
}
