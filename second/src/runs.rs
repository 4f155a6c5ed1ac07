//! The classes of runs that a comparison draws from. A run is what is called for the pieces of a file and for
//! its end.

pub mod called;
pub mod cuts;
mod events;
mod made;
pub mod memory;
pub mod run;
pub mod shown;
mod states;
pub mod tally;
mod totals;
pub mod worked;

use crate::files::{self, Class};
use crate::random::Random;
use made::{any_file, arriving, byte_by_byte, good_file, run_of, short_file};
use run::{end, piece, Run};

impl Class<Run> {
    pub fn run(&self, random: &mut Random) -> Run {
        (self.2)(random)
    }
}

pub const CLASSES: [Class<Run>; 27] = [
    Class("worked by hand", 20, made::worked_by_hand),
    Class("short files as a whole", 20, |r| run_of(vec![piece(&short_file(r)), end()], r)),
    Class("short files in two pieces", 60, |r| arriving(&short_file(r), cuts::in_two, r)),
    Class("short files in some pieces", 60, |r| arriving(&short_file(r), cuts::in_some, r)),
    Class("short files byte by byte", 30, |r| arriving(&short_file(r), byte_by_byte, r)),
    Class("fewer than twelve bytes", 20, made::fewer_than_twelve),
    Class("good files in two pieces", 30, |r| arriving(&good_file(r), cuts::in_two, r)),
    Class("good files in some pieces", 30, |r| arriving(&good_file(r), cuts::in_some, r)),
    Class("files of all lengths", 30, |r| arriving(&any_file(r), cuts::in_any_way, r)),
    Class("the largest files", 12, made::largest),
    Class("empty pieces among others", 60, made::with_empty_pieces),
    Class("wrong buffers among others", 80, made::with_wrong_buffers),
    Class("calls after the end", 80, made::with_calls_after),
    Class("an end at once", 20, made::end_at_once),
    Class("calls in any order", 50, made::in_any_order),
    Class("one file after the other", 30, made::one_after_the_other),
    Class("uneven pieces", 10, made::uneven_pieces),
    Class("as much as the buffer has, or one byte off", 40, totals::around_the_buffer),
    Class("pieces that pass the buffer's end", 50, totals::past_the_buffer),
    Class("wrong buffers when the buffer is full", 10, totals::wrong_buffers_at_last),
    Class("as long as allowed", 30, totals::as_long_as_allowed),
    Class("several buffers full", 12, totals::far_above),
    Class("good files to 16 bits", 20, totals::good_to_16_bits),
    Class("ended by a number that no call gives", 50, states::ended),
    Class("arrived more than a call says", 60, states::arrived),
    Class("arrived though nothing came", 30, states::arrived_within),
    Class("buffers that somebody else has written to", 40, states::touched),
];

/// A class by its weight.
pub fn draw(random: &mut Random) -> usize {
    files::draw_from(&CLASSES, random)
}
