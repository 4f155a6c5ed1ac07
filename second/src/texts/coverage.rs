//! What a file has in it for whoever asks for a recording by its id.

use crate::files::faults::trailer_of;
use crate::footprint::stored::{u32_at, Line, Trailer, ENTRY, TRAILER};
use crate::footprint::{judge, Verdict};

pub struct Coverage<'a> {
    pub file: &'a [u8],
    pub verdict: Verdict,
    pub trailer: Trailer,
    /// The table of a good file; of a refused one the entries that stand where one would look for them.
    pub lines: Vec<Line>,
}

impl<'a> Coverage<'a> {
    pub fn of(file: &'a [u8]) -> Self {
        let trailer = trailer_of(file).unwrap_or(Trailer { table: 0, recordings: 0, length: 0 });
        let lines = entries_in(file, trailer).chunks_exact(ENTRY).map(Line::read).collect();
        Coverage { file, verdict: judge(file), trailer, lines }
    }

    pub fn accepted(&self) -> bool {
        self.verdict.number == 0
    }

    /// The four bytes from a place on; none where the file does not reach so far.
    pub fn word_at(&self, place: usize) -> Option<u32> {
        (place + 4 <= self.file.len()).then(|| u32_at(self.file, place))
    }

    /// What an entry more would have for an id: behind the table, and before it.
    pub fn behind_the_table(&self) -> Option<u32> {
        self.word_at(self.file.len().checked_sub(TRAILER)?)
    }

    pub fn before_the_table(&self) -> Option<u32> {
        self.word_at((self.trailer.table as usize).checked_sub(ENTRY)?)
    }
}

/// Where the trailer says, or where it leaves off before the trailer.
fn entries_in(file: &[u8], trailer: Trailer) -> &[u8] {
    const MOST: u32 = 70;
    let bytes = ENTRY * trailer.recordings.min(MOST) as usize;
    let told = file.get(trailer.table as usize..).and_then(|rest| rest.get(..bytes));
    told.unwrap_or_else(|| {
        let table = &file[..file.len().saturating_sub(TRAILER)];
        &table[table.len() - bytes.min(table.len() / ENTRY * ENTRY)..]
    })
}
