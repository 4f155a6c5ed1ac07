//! A file and its twins. One has training in the place of what is held back: their lists are the same but for
//! the last line. The other has tests of the first edition only: its list has every line of the first list, as
//! it is, and more of them only for tests that went by the second; all else is the same.

use crate::files::editions::of_the_first_edition;
use crate::files::sets::as_training;
use crate::footprint::stored::{HELD_BACK, SECOND_EDITION};
use crate::footprint::{lines_of, MOST_BYTES};
use crate::leaks::List;

/// Whoever makes lists.
pub struct Side {
    pub name: &'static str,
    pub leaks: fn(&[u8], &mut [u8]) -> List,
}

impl Side {
    /// Of a good file. What is stored as held back is counted here, by itself.
    pub fn same_as_twin(&self, file: &[u8]) -> Result<(), String> {
        let lines = lines_of(file).unwrap_or_default();
        let held_back = lines.iter().filter(|line| line.set == HELD_BACK).count();
        let (list, text) = self.list_of(file);
        let (list_of_twin, text_of_twin) = self.list_of(&as_training(file));
        let front = text.strip_suffix(&format!("formerly held back {held_back}\n"));
        let same_text = front.is_some() && front == text_of_twin.strip_suffix("formerly held back 0\n");
        let same_numbers = numbers_of(list) == numbers_of(list_of_twin);
        let counts = [list.formerly_held_back as usize, list_of_twin.formerly_held_back as usize];
        if same_text && same_numbers && counts == [held_back, 0] {
            return Ok(());
        }
        let of_twin = format!("{list_of_twin:?}\n{text_of_twin}");
        Err(format!("the {} says {list:?}\n{text}and with training instead {of_twin}", self.name))
    }

    /// Of a good file, and of the one with all tests of the first edition.
    pub fn has_lines_of_twin(&self, file: &[u8]) -> Result<(), String> {
        let (list, text) = self.list_of(file);
        let (list_of_twin, text_of_twin) = self.list_of(&of_the_first_edition(file));
        let mut lines = lines_in(&text).into_iter().peekable();
        let left_out: Vec<&str> =
            lines_in(&text_of_twin).into_iter().filter(|line| lines.next_if_eq(line).is_none()).collect();
        let second = tests_of_the_second(file);
        let of_second = |line: &&str| second.iter().any(|id| line.starts_with(&format!("test {id} ")));
        let same =
            |list: List| [list.number, list.place, list.touching, list.tested, list.formerly_held_back];
        let lines_fit = lines.next().is_none() && left_out.iter().all(of_second);
        if lines_fit
            && same(list) == same(list_of_twin)
            && closing_lines(&text) == closing_lines(&text_of_twin)
        {
            return Ok(());
        }
        let of_twin = format!("{list_of_twin:?}\n{text_of_twin}");
        Err(format!("the {} says {list:?}\n{text}and by the first edition {of_twin}", self.name))
    }

    /// The answer and the text, which is empty where it is refused.
    fn list_of(&self, file: &[u8]) -> (List, String) {
        let mut room = vec![0; MOST_BYTES];
        let list = (self.leaks)(file, &mut room);
        room.truncate(list.length);
        (list, String::from_utf8_lossy(&room).into_owned())
    }
}

fn tests_of_the_second(file: &[u8]) -> Vec<u32> {
    let lines = lines_of(file).unwrap_or_default();
    lines.iter().filter(|line| line.last == SECOND_EDITION).map(|line| line.id).collect()
}

fn lines_in(text: &str) -> Vec<&str> {
    text.lines().filter(|line| line.starts_with("test ")).collect()
}

/// All but the first line and those of leaks.
fn closing_lines(text: &str) -> Vec<&str> {
    text.lines().skip(1 + lines_in(text).len()).collect()
}

/// All that have nothing to do with the last line.
fn numbers_of(list: List) -> [u32; 5] {
    [list.number, list.place, list.leaks, list.touching, list.tested]
}

#[cfg(test)]
mod tests {
    use super::*;
    use crate::leaks::leaks;
    use crate::lists::{worked, CLASSES};
    use crate::random::Random;

    const SECOND: Side = Side { name: "second program", leaks };

    #[test]
    fn worked_by_hand() {
        worked::all().iter().for_each(|worked| SECOND.same_as_twin(&worked.file).expect("the same list"));
        worked::all().iter().for_each(|worked| SECOND.has_lines_of_twin(&worked.file).expect("its lines"));
    }

    #[test]
    fn classes() {
        let mut random = Random::new(12);
        for class in CLASSES.iter().cycle().take(600) {
            let file = class.file(&mut random);
            if lines_of(&file).is_ok() {
                SECOND.same_as_twin(&file).expect(class.name());
                SECOND.has_lines_of_twin(&file).expect(class.name());
            }
        }
    }
}
