//! The classes of files that a comparison draws from.

pub mod coverage;
pub mod damage;
pub mod draft;
pub mod editions;
mod events;
pub mod faults;
pub mod good;
mod planted;
mod raw;
pub mod sets;
pub mod shapes;
pub mod shown;
pub mod tally;
pub mod worked;

use crate::random::Random;
use damage as d;

/// Its name, its weight, and how one of it is made: a file, or what else a comparison draws.
pub struct Class<T = Vec<u8>>(pub &'static str, pub usize, pub fn(&mut Random) -> T);

impl<T> Class<T> {
    pub fn name(&self) -> &'static str {
        self.0
    }

    /// How many of all the weights' sum belong to this class.
    fn weight(&self) -> usize {
        self.1
    }
}

impl Class {
    pub fn file(&self, random: &mut Random) -> Vec<u8> {
        (self.2)(random)
    }
}

pub const CLASSES: [Class; 43] = [
    Class("worked by hand", 8, |r| worked::all().swap_remove(r.below(worked::all().len())).file),
    Class("no recordings", 4, |_| good::none().bytes()),
    Class("one recording", 12, |r| good::one(r).bytes()),
    Class("few recordings", 16, |r| good::few(r).bytes()),
    Class("several recordings", 10, |r| good::several(r).bytes()),
    Class("64 recordings", 12, |r| good::full_table(r).bytes()),
    Class("the largest that fit", 6, |r| good::largest(r).bytes()),
    Class("nearly equal ids", 10, |r| good::near_ids(r).bytes()),
    Class("coordinates at the ends", 10, |r| good::of_shape(r, shapes::at_the_ends).bytes()),
    Class("nearly flat triangles", 14, |r| good::of_shape(r, shapes::thin).bytes()),
    Class("crosses that are zero to 32 bits", 14, |r| good::of_shape(r, shapes::vanishing).bytes()),
    Class("tests of the second edition", 30, |r| good::of_the_second_edition(r).bytes()),
    Class("stored length", 20, |r| planted::one(r, d::stored_length)),
    Class("count of recordings", 30, |r| planted::one(r, d::recordings)),
    Class("more than 64 recordings", 10, planted::too_many),
    Class("place of the table", 20, |r| planted::one(r, d::table_place)),
    Class("sum past 32 bits", 14, |r| planted::one(r, d::sum_past_32_bits)),
    Class("table and count moved together", 14, |r| planted::one(r, d::table_and_count)),
    Class("no triangles", 30, |r| planted::one(r, d::no_triangles)),
    Class("set over 2", 30, |r| planted::one(r, d::set)),
    Class("last byte over 1", 40, |r| planted::one(r, d::last_byte)),
    Class("last byte 1 of no test", 50, |r| planted::one(r, d::edition_of_no_test)),
    Class("first triangle elsewhere", 40, |r| planted::one(r, d::first)),
    Class("id already seen", 50, |r| planted::one(r, d::id)),
    Class("triangles left over", 24, |r| planted::one(r, d::left_over)),
    Class("triangles beyond the table", 40, |r| planted::one(r, d::beyond)),
    Class("no recordings but a table elsewhere", 10, planted::table_of_none),
    Class("coordinate out of range", 60, |r| planted::one(r, d::coordinate)),
    Class("flat triangle", 50, |r| planted::one(r, d::flat)),
    Class("two faults", 200, planted::two),
    Class("the same fault twice", 30, planted::the_same_twice),
    Class("many faults", 60, planted::many),
    Class("a fault in one of the largest", 16, planted::one_in_largest),
    Class("too long", 24, planted::too_long),
    Class("cut short", 20, raw::cut_short),
    Class("extended", 20, raw::extended),
    Class("one byte changed", 40, raw::one_byte_changed),
    Class("some bytes changed", 20, raw::some_bytes_changed),
    Class("stretches exchanged", 16, raw::exchanged),
    Class("bytes the other way round", 6, raw::big_endian),
    Class("lengths", 30, raw::lengths),
    Class("as long as allowed", 30, raw::limit),
    Class("noise", 20, raw::noise),
];

/// A class by its weight.
pub fn draw(random: &mut Random) -> usize {
    draw_from(&CLASSES, random)
}

pub fn draw_from<T>(classes: &[Class<T>], random: &mut Random) -> usize {
    let total: usize = classes.iter().map(Class::weight).sum();
    let mut rest = random.below(total);
    for (index, class) in classes.iter().enumerate() {
        if rest < class.weight() {
            return index;
        }
        rest -= class.weight();
    }
    unreachable!("the rest is below the sum of the weights")
}

#[cfg(test)]
mod tests {
    use super::*;
    use crate::footprint::{judge, Verdict};

    /// Two ways to the same answer: the first of all faults, and the one at which judging stops.
    #[test]
    fn the_first_fault_is_the_verdict() {
        let mut random = Random::new(5);
        for class in CLASSES.iter().cycle().take(4_000) {
            let file = class.file(&mut random);
            let first = faults::faults_in(&file).first().copied();
            let expected = first.map_or(Verdict::default(), |fault| Verdict {
                number: fault.reason.number(),
                place: fault.place,
            });
            assert_eq!(judge(&file), expected, "class '{}'", class.name());
        }
    }
}
