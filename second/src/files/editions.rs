//! Good files with tests of other editions, and nothing else changed.

use super::draft::Draft;
use crate::footprint::stored::{Trailer, ENTRY, FIRST_EDITION, SECOND_EDITION, TEST, TRAILER};
use crate::random::Random;

/// Each test's edition, in the table's order, is put in the place of what it was.
pub fn with_editions(file: &[u8], mut edition: impl FnMut(u8) -> u8) -> Vec<u8> {
    let mut file = file.to_vec();
    let end = file.len() - TRAILER;
    let table = Trailer::read(&file[end..]).table as usize;
    let tests = file[table..end].chunks_exact_mut(ENTRY).filter(|entry| entry[10] == TEST);
    tests.for_each(|entry| entry[11] = edition(entry[11]));
    file
}

/// All tests go by the first.
pub fn of_the_first_edition(file: &[u8]) -> Vec<u8> {
    with_editions(file, |_| FIRST_EDITION)
}

/// In every other draft all tests go by the second, or some.
pub fn some_second(mut draft: Draft, random: &mut Random) -> Draft {
    let (some, all) = (random.once_in(2), random.once_in(2));
    for line in draft.table.iter_mut().filter(|line| line.set == TEST) {
        if some && (all || random.once_in(2)) {
            line.last = SECOND_EDITION;
        }
    }
    draft
}

#[cfg(test)]
mod tests {
    use super::*;
    use crate::files::worked::{changed, EXAMPLE, SHORTEST, THREE};

    #[test]
    fn last_bytes_of_tests_and_nothing_else() {
        let second = |file: &[u8]| with_editions(file, |_| SECOND_EDITION);
        assert_eq!(second(&SHORTEST), SHORTEST);
        assert_eq!(second(&EXAMPLE), changed(&EXAMPLE, 71, 1));
        assert_eq!(second(&THREE), changed(&THREE, 131, 1));
        assert_eq!(of_the_first_edition(&second(&THREE)), THREE);
    }
}
