//! The classes of drafts that a comparison of writers draws from. A draft is what is handed to a writer.

mod at_once;
pub mod calls;
pub mod coverage;
pub mod draft;
mod events;
pub mod faults;
mod good;
pub mod long;
pub mod memory;
mod orders;
mod planted;
pub mod round_trips;
pub mod shown;
mod spoils;
pub mod tally;
pub mod worked;

use crate::files::{self, shapes, Class};
use crate::random::Random;
use draft::Draft;
use spoils as s;

impl Class<Draft> {
    pub fn draft(&self, random: &mut Random) -> Draft {
        (self.2)(random)
    }
}

const HUNDREDS: [usize; 4] = [80, 100, 130, 200];

pub const CLASSES: [Class<Draft>; 49] = [
    Class("no recordings", 16, |_| Draft::default()),
    Class("one recording", 20, |r| files::good::one(r).into()),
    Class("few recordings", 30, |r| files::good::few(r).into()),
    Class("several recordings", 14, |r| files::good::several(r).into()),
    Class("recordings of one set", 20, good::of_one_set),
    Class("2, 63 or 64 recordings", 36, |r| good::of_recordings(r, &[2, 63, 64])),
    Class("65 or 66 recordings", 24, |r| good::of_recordings(r, &[65, 66])),
    Class("some hundreds of recordings", 14, |r| good::of_recordings(r, &[128, 255, 256, 257, 320])),
    Class("a count of two bytes", 14, good::large_count),
    Class("as long as a file can be", 12, good::longest),
    Class("twelve bytes too long", 38, good::just_too_long),
    Class("about too long", 24, good::about_too_long),
    Class("nearly equal ids", 14, |r| files::good::near_ids(r).into()),
    Class("coordinates at the ends", 14, |r| files::good::of_shape(r, shapes::at_the_ends).into()),
    Class("nearly flat triangles", 14, |r| files::good::of_shape(r, shapes::thin).into()),
    Class("crosses that are zero to 32 bits", 14, |r| files::good::of_shape(r, shapes::vanishing).into()),
    Class("tests of the second edition", 110, good::of_the_second_edition),
    Class("65 tests or more of the second edition", 30, |r| {
        good::in_the_second_edition(good::of_recordings(r, &[65, 65, 66, 80]), r)
    }),
    Class("lists of different lengths", 420, |r| planted::one(r, s::lengths)),
    Class("a triangle broken off", 90, |r| planted::one(r, s::broken_off)),
    Class("no triangles", 30, |r| planted::one(r, s::no_triangles)),
    Class("set over 2", 40, |r| planted::one(r, s::set)),
    Class("set 2", 60, |r| planted::one(r, s::held_back)),
    Class("set 2 of one of many entries", 80, |r| {
        planted::one_of_many(r, &[63, 64, 64, 64, 64, 64, 80, 100, 130], &[s::held_back])
    }),
    Class("set 2 and an id seen beside it", 40, |r| planted::one(r, s::held_back_beside_id)),
    Class("set 2 and another fault", 100, planted::held_back_and_another),
    Class("last byte over 1", 50, |r| planted::one(r, s::last_byte)),
    Class("last byte 1 of no test", 60, |r| planted::one(r, s::edition_of_no_test)),
    Class("a last byte of one of many entries", 150, |r| {
        planted::one_of_many(
            r,
            &[63, 64, 64, 64, 64, 64, 80, 100, 130],
            &[s::last_byte, s::edition_of_no_test],
        )
    }),
    Class("a last byte and an id seen beside it", 70, |r| planted::one(r, s::last_byte_beside_id)),
    Class("a last byte and another fault of its entry", 40, |r| planted::one(r, s::last_byte_and_other_14)),
    Class("a last byte and another fault", 110, planted::last_byte_and_another),
    Class("id already seen", 40, |r| planted::one(r, s::id)),
    Class("one of 64 entries", 50, |r| planted::one_of_many(r, &[64], &[s::set, s::id, s::id])),
    Class("one of hundreds of entries", 110, |r| {
        planted::one_of_many(r, &HUNDREDS, &[s::no_triangles, s::no_triangles, s::set, s::id, s::id])
    }),
    Class("id seen more than 64 entries before", 14, |r| {
        planted::one_of_many(r, &HUNDREDS, &[s::id_from_far_back])
    }),
    Class("sum off by a triangle or a recording", 60, |r| planted::one(r, s::sum)),
    Class("sum right to 32 bits", 24, |r| planted::one(r, s::wrapping_sum)),
    Class("multiple of the sum right to 32 bits", 44, |r| planted::one(r, s::wrapping_multiple)),
    Class("count far too large", 24, |r| planted::one(r, s::huge_count)),
    Class("triangles of no recordings", 32, planted::none),
    Class("coordinate out of range", 60, |r| planted::one(r, s::coordinate)),
    Class("flat triangle", 60, |r| planted::one(r, s::flat)),
    Class("flat and out of range", 30, |r| planted::one(r, s::coordinate_of_flat)),
    Class("two faults", 260, planted::two),
    Class("the same fault twice", 40, planted::the_same_twice),
    Class("entries or triangles with two faults by turns", 110, planted::two_by_turns),
    Class("many faults", 60, planted::many),
    Class("a fault in one that is too long", 96, planted::too_long),
];

/// A class by its weight.
pub fn draw(random: &mut Random) -> usize {
    files::draw_from(&CLASSES, random)
}

#[cfg(test)]
mod tests {
    use super::*;
    use crate::writer::{write, Written};

    /// Two ways to the same answer: the first of all faults, and the one at which writing stops.
    #[test]
    fn the_first_fault_is_the_refusal() {
        let mut random = Random::new(5);
        let drawn = CLASSES.iter().cycle().take(4_000).map(|class| (class.name(), class.draft(&mut random)));
        let in_turn = worked::in_turn().into_iter().map(|draft| ("in turn", draft));
        for (class, draft) in drawn.chain(in_turn) {
            let first = faults::faults_in(&draft).first().copied();
            let number = first.map_or(0, |fault| fault.reason.number());
            let length = if number == 0 { draft.length() } else { 0 };
            let mut room = vec![0; draft.length()];
            let expected = Written { number, place: 0, length };
            assert_eq!(write(draft.handed(), &mut room), expected, "class '{class}'");
        }
    }
}
