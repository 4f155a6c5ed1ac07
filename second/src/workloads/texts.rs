//! Recordings whose well-known texts are written, again and again.

use std::time::Instant;

use super::{fold_written, largest_file, unforeseen};
use crate::footprint::lines_of;
use crate::texts::longest;
use crate::wkt::MOST_TEXT;
use crate::writer::Written;

/// The longest text that there is, and the texts of all recordings of the file that is judged.
pub const WKT: &str = "wkt";
pub const WKT_NIGHT: &str = "wkt-night";
pub const TEXTS: [&str; 2] = [WKT, WKT_NIGHT];

/// A file, and the ids of its recordings in the order in which they are asked for.
pub struct Night {
    file: Vec<u8>,
    ids: Vec<u32>,
}

pub type Wkt = fn(&[u8], u32, &mut [u8]) -> Written;

/// None where there is no workload of that name.
pub fn night(name: &str) -> Option<Night> {
    let file = match name {
        WKT => longest::file(),
        WKT_NIGHT => largest_file(),
        _ => return None,
    };
    let ids = lines_of(&file).expect("the file is a good one").iter().map(|line| line.id).collect();
    Some(Night { file, ids })
}

impl Night {
    /// Every answer with every text, and the room as it is in the end.
    pub fn everything(&self, wkt: Wkt) -> (Vec<(Written, Vec<u8>)>, Vec<u8>) {
        let mut room = vec![46; MOST_TEXT];
        let mut text = |id: &u32| {
            let written = wkt(&self.file, *id, &mut room);
            (written, room[..written.length].to_vec())
        };
        let texts = self.ids.iter().map(&mut text).collect();
        (texts, room)
    }

    /// Bytes of all texts.
    pub fn bytes(&self, wkt: Wkt) -> usize {
        self.everything(wkt).0.iter().map(|(written, _)| written.length).sum()
    }

    /// One step of a checksum for each text.
    pub fn round(&self, sum: u64, wkt: Wkt, room: &mut [u8]) -> u64 {
        self.ids.iter().fold(sum, |sum, id| fold_written(sum, wkt(unforeseen(&self.file), *id, room)))
    }

    /// Nanoseconds for each of so many bytes. The room is made, and touched, before the clock runs.
    pub fn time(&self, bytes: usize, wkt: Wkt) -> f64 {
        let mut room = vec![46; MOST_TEXT];
        let begin = Instant::now();
        unforeseen(self.round(0, wkt, &mut room));
        begin.elapsed().as_nanos() as f64 / bytes as f64
    }
}

#[cfg(test)]
mod tests {
    use super::*;
    use crate::wkt::wkt;

    #[test]
    fn texts_are_written() {
        for (name, texts, bytes) in [(WKT, 1, 256_545), (WKT_NIGHT, 64, 225_543)] {
            let night = night(name).expect("there is such a workload");
            let (answers, _) = night.everything(wkt);
            assert!(answers.len() == texts && answers.iter().all(|(written, _)| written.number == 0));
            assert_eq!(night.bytes(wkt), bytes, "{name}");
        }
        assert!(night("wkt-").is_none());
    }
}
