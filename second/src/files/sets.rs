//! Good files with other sets, and nothing else changed.

use crate::footprint::stored::{Trailer, ENTRY, HELD_BACK, TRAILER, TRAINING};

/// Each recording's set, in the table's order, is put in the place of what it was.
pub fn with_sets(file: &[u8], mut set: impl FnMut(u8) -> u8) -> Vec<u8> {
    let mut file = file.to_vec();
    let end = file.len() - TRAILER;
    let table = Trailer::read(&file[end..]).table as usize;
    file[table..end].chunks_exact_mut(ENTRY).for_each(|entry| entry[10] = set(entry[10]));
    file
}

/// Training in the place of what is held back.
pub fn as_training(file: &[u8]) -> Vec<u8> {
    with_sets(file, trained_on)
}

pub fn trained_on(set: u8) -> u8 {
    if set == HELD_BACK {
        TRAINING
    } else {
        set
    }
}

#[cfg(test)]
mod tests {
    use super::*;
    use crate::files::worked::{changed, EXAMPLE, SHORTEST, THREE};

    #[test]
    fn sets_and_nothing_else() {
        assert_eq!(as_training(&SHORTEST), SHORTEST);
        assert_eq!(as_training(&EXAMPLE), EXAMPLE);
        assert_eq!(as_training(&THREE), changed(&THREE, 106, 0));
        assert_eq!(with_sets(&EXAMPLE, |set| 2 - set), changed(&EXAMPLE, 58, 2));
    }
}
