//! The classes of files that a comparison of well-known texts draws from.

pub mod asked;
pub mod calls;
pub mod coverage;
mod events;
pub mod every;
pub mod ids;
pub mod longest;
mod made;
pub mod memory;
pub mod numbers;
pub mod tally;
pub mod worked;

use crate::files::{self, good, Class};
use crate::footprint::judge;
use crate::lists;
use crate::random::Random;

/// Good files in the first so many.
pub const GOOD: usize = 15;

pub const CLASSES: [Class; 21] = [
    Class("no recordings", 8, |_| good::none().bytes()),
    Class("numbers at changes of sign and width", 50, |r| good::of_shape(r, numbers::at_changes).bytes()),
    Class("numbers below a metre", 20, |r| good::of_shape(r, numbers::below_a_metre).bytes()),
    Class("numbers of any width", 40, |r| good::of_shape(r, numbers::of_any_width).bytes()),
    Class("the widest numbers", 16, |r| good::of_shape(r, numbers::widest).bytes()),
    Class("the narrowest numbers", 16, |r| good::of_shape(r, numbers::narrowest).bytes()),
    Class("ids that are numbers of the table", 24, made::numbers_as_ids),
    Class("ids that stand elsewhere in the file", 30, made::ids_from_elsewhere),
    Class("nearly equal ids", 16, |r| good::near_ids(r).bytes()),
    Class("64 recordings", 8, |r| good::full_table(r).bytes()),
    Class("one recording of hundreds of triangles", 6, made::long),
    Class("one recording of thousands of triangles", 9, made::very_long),
    Class("the largest that fit", 6, |r| good::largest(r).bytes()),
    Class("good files that readers are compared with", 50, |r| good_one(&files::CLASSES, r)),
    Class("good files whose leaks are listed", 40, |r| good_one(&lists::CLASSES[..=lists::OF_ANY_SETS], r)),
    Class("a fault at a triangle of several recordings", 50, made::fault_at_a_triangle),
    Class("a fault at an entry of several", 40, made::fault_at_an_entry),
    Class("an id that is there twice", 20, made::id_twice),
    Class("empty", 14, |_| Vec::new()),
    Class("too long", 8, made::too_long),
    Class("any files that readers are compared with", 130, any_file),
];

/// A class by its weight.
pub fn draw(random: &mut Random) -> usize {
    files::draw_from(&CLASSES, random)
}

/// Most of them are refused. A longer one is drawn again as a rule: it takes its time.
fn any_file(random: &mut Random) -> Vec<u8> {
    const LONG: usize = 20_000;
    loop {
        let file = files::CLASSES[files::draw(random)].file(random);
        if file.len() < LONG || random.once_in(6) {
            return file;
        }
    }
}

/// Of any class, as long as it is good and not too long.
fn good_one(classes: &[Class], random: &mut Random) -> Vec<u8> {
    const LONG: usize = 8_192;
    loop {
        let file = classes[random.below(classes.len())].file(random);
        if file.len() < LONG && judge(&file).number == 0 {
            return file;
        }
    }
}

#[cfg(test)]
mod tests {
    use super::*;

    #[test]
    fn classes_of_good_files() {
        let mut random = Random::new(9);
        for class in &CLASSES[..GOOD] {
            for _ in 0..20 {
                assert_eq!(judge(&class.file(&mut random)).number, 0, "class '{}'", class.name());
            }
        }
    }
}
