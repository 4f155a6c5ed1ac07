//! The classes of files that a comparison of leak lists draws from.

pub mod coverage;
pub mod editions;
mod events;
mod held_back;
pub mod largest;
mod outlines;
mod recordings;
pub mod rooms;
mod rows;
mod scenes;
mod seams;
pub mod tally;
mod tracks;
pub mod twins;
pub mod worked;

use crate::files::{self, good, shapes, Class};
use crate::footprint::lines_of;
use crate::footprint::stored::{Line, TEST};
use crate::leaks::is_training;
use crate::random::Random;
use editions::{limits, sums};

/// Good files in the first so many; what is held back among them is so by chance.
pub const OF_ANY_SETS: usize = 27;

pub const CLASSES: [Class; 40] = [
    Class("no recordings", 10, |_| good::none().bytes()),
    Class("worked pairs", 14, scenes::worked),
    Class("few recordings on a small grid", 20, |r| scenes::grid(r, 2, 6, 3)),
    Class("several recordings on a small grid", 12, |r| scenes::grid(r, 9, 20, 1)),
    Class("64 recordings on a small grid", 9, |r| scenes::grid(r, 64, 64, 1)),
    Class("touching pairs", 22, scenes::touching),
    Class("tracks that cross, touch or lie apart", 16, tracks::file),
    Class("parts of edges", 40, scenes::part_of_an_edge),
    Class("floors of planks", 26, seams::floor),
    Class("tests and trainings on two banks", 16, seams::banks),
    Class("recordings of one set", 12, scenes::one_set),
    Class("one pair with a ring", 36, scenes::one_pair),
    Class("many pairs that overlap", 14, scenes::many_pairs),
    Class("triangles of any shape, one recording", 9, |r| good::one(r).bytes()),
    Class("triangles of any shape, few recordings", 10, |r| good::few(r).bytes()),
    Class("long and thin triangles", 10, |r| good::of_shape(r, shapes::thin).bytes()),
    Class("triangles at the ends of the range", 10, |r| good::of_shape(r, shapes::at_the_ends).bytes()),
    Class("tracks along a diagonal", 12, outlines::diagonals),
    Class("tracks round a corner", 10, outlines::bent),
    Class("tracks round others", 12, outlines::rings),
    Class("recordings at a common border", 34, outlines::borders),
    Class("triangles at the corners of a recording", 18, outlines::corners),
    Class("recordings within one another", 12, outlines::within),
    Class("boxes that all have a point in common", 14, outlines::all_near),
    Class("boxes that are all apart", 10, outlines::none_near),
    Class("rows that one triangle leaves", 54, rows::file),
    Class("beyond the tip of a needle", 24, scenes::needle),
    Class("files that readers are compared with", 130, any_file),
    Class("others' trainings stored as held back", 60, held_back::among_others),
    Class("held back beside tests and others", 50, held_back::roles),
    Class("64 recordings held back, or all but tests", 32, held_back::crowd),
    Class("others' tests of the second edition", 110, editions::among_others),
    Class("slivers, leaks and neighbours of both editions", 90, editions::roles),
    Class("trainings of a hundredth, or a little more or less", 60, limits::near_a_hundredth),
    Class("strips that overlap by a hundredth or so", 50, limits::bands),
    Class("tests that are tiled with trainings", 90, sums::tiled),
    Class("areas of which the order decides", 50, sums::in_order),
    Class("areas that no number has", 120, sums::fractions),
    Class("many small overlaps", 30, sums::many),
    Class("own areas that are rounded", 34, sums::past_53_bits),
];

/// A class by its weight.
pub fn draw(random: &mut Random) -> usize {
    files::draw_from(&CLASSES, random)
}

/// Most of them are refused; none takes long.
fn any_file(random: &mut Random) -> Vec<u8> {
    const MOST: usize = 300;
    loop {
        let file = files::CLASSES[files::draw(random)].file(random);
        if pairs_in(&file) <= MOST {
            return file;
        }
    }
}

/// Triangle pairs that a list has to look at; none of a refused file.
pub fn pairs_in(file: &[u8]) -> usize {
    let lines = lines_of(file).unwrap_or_default();
    let count = |line: &Line| usize::from(line.count);
    of_set(&lines, TEST).map(count).sum::<usize>() * trainings(&lines).map(count).sum::<usize>()
}

/// The recordings that a list looks at beside the tests, in the table's order.
pub fn trainings(lines: &[Line]) -> impl Iterator<Item = &Line> {
    lines.iter().filter(|line| is_training(line))
}

/// The recordings that are stored with one set, in the table's order.
pub fn of_set(lines: &[Line], set: u8) -> impl Iterator<Item = &Line> {
    lines.iter().filter(move |line| line.set == set)
}

#[cfg(test)]
mod tests {
    use super::*;

    /// All but the one of which most are refused.
    #[test]
    fn classes_of_good_files() {
        let mut random = Random::new(6);
        for class in CLASSES[..OF_ANY_SETS].iter().chain(&CLASSES[OF_ANY_SETS + 1..]) {
            for _ in 0..100 {
                assert!(lines_of(&class.file(&mut random)).is_ok(), "class '{}'", class.name());
            }
        }
    }
}
