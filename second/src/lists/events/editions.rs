//! What a program could do unseen that takes one edition of the leak rule for the other, or weighs overlaps in
//! another way. A sliver is an overlap that is no leak by the second edition.

use super::Event;
use crate::footprint::stored::{FIRST_EDITION, HELD_BACK, SECOND_EDITION, TEST, TRAINING};
use crate::lists::coverage::boxes::Two;
use crate::lists::coverage::editions::Weighed;
use crate::lists::coverage::Coverage;

/// Of files by their tests' editions.
pub const EDITIONS: [Event; 34] = [
    ("second edition in no test", |c| tests(c, FIRST_EDITION) > 0 && tests(c, SECOND_EDITION) == 0),
    ("second edition in the only test", |c| c.recordings_of(TEST) == 1 && tests(c, SECOND_EDITION) == 1),
    ("second edition in all of several tests", |c| {
        tests(c, SECOND_EDITION) > 1 && tests(c, FIRST_EDITION) == 0
    }),
    ("second edition in some of the tests", |c| tests(c, SECOND_EDITION) > 0 && tests(c, FIRST_EDITION) > 0),
    ("second edition beside training alone", |c| of_second(c) && !has(c, HELD_BACK) && has(c, TRAINING)),
    ("second edition beside held back ones alone", |c| {
        of_second(c) && has(c, HELD_BACK) && !has(c, TRAINING)
    }),
    ("second edition beside both", |c| of_second(c) && has(c, HELD_BACK) && has(c, TRAINING)),
    ("second edition beside neither", |c| of_second(c) && c.trainings() == 0),
    ("first edition, a sliver, and so a line", |c| c.any(|two| is(two, FIRST_EDITION) && two.sliver)),
    ("second edition, a sliver, and so no line", |c| c.any(is_sliver)),
    ("second edition, a line", |c| c.any(is_line)),
    ("second edition, touching ones", |c| c.any(|two| is(two, SECOND_EDITION) && two.counts.only_touch())),
    ("second edition, apart with near boxes", |c| {
        c.any(|two| is(two, SECOND_EDITION) && !two.near.is_empty() && is_apart(two))
    }),
    ("second edition, far", |c| c.any(|two| is(two, SECOND_EDITION) && two.near.is_empty())),
    ("slivers, the first edition's before the second's", |c| slivers(c, FIRST_EDITION, SECOND_EDITION)),
    ("slivers, the second edition's before the first's", |c| slivers(c, SECOND_EDITION, FIRST_EDITION)),
    ("slivers, and lines of the second edition alone", |c| {
        c.any(is_sliver) && c.any(is_line) && tests(c, FIRST_EDITION) == 0
    }),
    ("overlaps, and not one line", |c| c.leaks().is_empty() && c.any(|two| two.counts.overlap())),
    ("overlaps, and not one line, and touching ones", |c| {
        c.leaks().is_empty() && c.touching() > 0 && c.any(is_sliver)
    }),
    ("slivers with touching triangles, not counted as touching", |c| c.any(is_touching_sliver)),
    ("slivers with touching triangles, and nothing is touching", |c| {
        c.touching() == 0 && c.any(is_touching_sliver)
    }),
    ("slivers with touching triangles, beside such that touch", |c| {
        c.touching() > 0 && c.any(is_touching_sliver)
    }),
    ("lines with touching triangles", |c| c.any(|two| is_line(two) && two.counts.touching > 0)),
    ("a sliver with a training", |c| c.any(|two| is_sliver(two) && two.set == TRAINING)),
    ("a sliver with one held back", |c| c.any(|two| is_sliver(two) && two.set == HELD_BACK)),
    ("a line with a training", |c| c.any(|two| is_line(two) && two.set == TRAINING)),
    ("a line with one held back", |c| c.any(|two| is_line(two) && two.set == HELD_BACK)),
    ("a sliver before a line of the same test", |c| in_turn(c, is_sliver, is_line)),
    ("a sliver behind a line of the same test", |c| in_turn(c, is_line, is_sliver)),
    ("a sliver before a touching one of the same test", |c| {
        in_turn(c, is_sliver, |two| two.counts.only_touch())
    }),
    ("slivers that together are none, with several trainings", |c| together(c, true)),
    ("slivers that together are none, of several tests", |c| together(c, false) && !together(c, true)),
    ("a line, but not by the own areas of all tests", |c| {
        let own = own_of_all(c);
        c.any(|two| is_line(two) && 100.0 * two.counts.area <= own)
    }),
    ("tested pairs of a sliver, but not only these", |c| {
        c.any(|two| is_sliver(two) && two.counts.tested > two.counts.overlapping)
    }),
];

/// Of an overlap with a test of the second edition.
pub const WEIGHED: [(&str, fn(&Weighed) -> bool); 29] = [
    ("a line, N 1", |w| w.leak() && w.pairs() == 1),
    ("a line, N 2 to 9", |w| w.leak() && (2..10).contains(&w.pairs())),
    ("a line, N 10 to 99", |w| w.leak() && (10..100).contains(&w.pairs())),
    ("a line, N 100 or more", |w| w.leak() && w.pairs() >= 100),
    ("a sliver of 1 triangle pair", |w| !w.leak() && w.pairs() == 1),
    ("a sliver of 2 to 9 triangle pairs", |w| !w.leak() && (2..10).contains(&w.pairs())),
    ("a sliver of 10 to 99 triangle pairs", |w| !w.leak() && (10..100).contains(&w.pairs())),
    ("a sliver of 100 triangle pairs or more", |w| !w.leak() && w.pairs() >= 100),
    ("a line with the first of several overlaps", |w| w.leaks_after() == Some(0) && w.pairs() > 1),
    ("a line with the last of several overlaps only", |w| {
        w.pairs() > 1 && w.leaks_after() == Some(w.pairs() - 1)
    }),
    ("a line with one between, and none behind it counts", |w| {
        w.leaks_after().map_or(false, |after| after > 0 && after + 1 < w.pairs())
    }),
    ("at the limit", Weighed::at_the_limit),
    ("at the limit, truly", |w| w.at_the_limit() && w.truly_at_the_limit()),
    ("at the limit by rounding, truly above it or below", |w| w.at_the_limit() && !w.truly_at_the_limit()),
    ("not at the limit by rounding, truly at it", |w| !w.at_the_limit() && w.truly_at_the_limit()),
    ("above by less than 2^-50 of it", |w| w.leak() && w.beyond() < 2f64.powi(-50)),
    ("above by less than a thousandth of it", |w| w.leak() && (2f64.powi(-50)..0.001).contains(&w.beyond())),
    ("below by less than 2^-50 of it", |w| below(w) && w.beyond() > -2f64.powi(-50)),
    ("below by less than a thousandth of it", |w| {
        below(w) && (-0.001..=-2f64.powi(-50)).contains(&w.beyond())
    }),
    ("far above, all of the test", |w| 100.0 * w.sum() >= 99.0 * w.own()),
    ("less than a hundredth of the limit", |w| 100.0 * 100.0 * w.sum() < w.own()),
    ("a test of both orientations, a line", |w| w.of_both_orientations() && w.leak()),
    ("a test of both orientations, a sliver", |w| w.of_both_orientations() && !w.leak()),
    ("an own area of 2^52 or more, a line", |w| w.own() >= 2f64.powi(52) && w.leak()),
    ("an own area of 2^52 or more, a sliver", |w| w.own() >= 2f64.powi(52) && !w.leak()),
    ("an own area that is rounded, a line", |w| w.own_is_rounded() && w.leak()),
    ("an own area that is rounded, a sliver", |w| w.own_is_rounded() && !w.leak()),
    ("an area below one", |w| w.sum() < 1.0),
    ("an area of 2^40 or more", |w| w.sum() >= 2f64.powi(40)),
];

fn tests(c: &Coverage, edition: u8) -> usize {
    c.lines.iter().filter(|line| line.set == TEST && line.last == edition).count()
}

fn of_second(c: &Coverage) -> bool {
    tests(c, SECOND_EDITION) > 0
}

fn has(c: &Coverage, set: u8) -> bool {
    c.recordings_of(set) > 0
}

fn is(two: &Two, edition: u8) -> bool {
    two.edition == edition
}

fn is_sliver(two: &Two) -> bool {
    is(two, SECOND_EDITION) && two.sliver
}

fn is_line(two: &Two) -> bool {
    is(two, SECOND_EDITION) && two.counts.overlap() && !two.sliver
}

fn is_apart(two: &Two) -> bool {
    !two.counts.overlap() && !two.counts.only_touch()
}

fn is_touching_sliver(two: &Two) -> bool {
    is_sliver(two) && two.counts.touching > 0
}

fn below(w: &Weighed) -> bool {
    !w.leak() && !w.at_the_limit()
}

/// Slivers of two tests of which the one comes before the other.
fn slivers(c: &Coverage, before: u8, behind: u8) -> bool {
    let of = |edition: u8| c.twos.iter().filter(move |two| is(two, edition) && two.sliver).map(|two| two.of);
    of(before).next() < of(behind).last() && of(before).next().is_some()
}

/// Two trainings in the table's order, beside one test of the second edition.
fn in_turn(c: &Coverage, before: fn(&Two) -> bool, behind: fn(&Two) -> bool) -> bool {
    let mut seen = None;
    c.twos.iter().any(|two| {
        let is_behind = seen == Some(two.of) && behind(two);
        seen = if before(two) { Some(two.of) } else { seen };
        is_behind
    })
}

/// What would be a leak with another sliver if the sum had not begun anew, with every training or every test.
fn together(c: &Coverage, anew_with_test: bool) -> bool {
    let (mut sum, mut of) = (0.0, None);
    c.twos.iter().filter(|two| is_sliver(two)).any(|two| {
        sum = two.counts.area + if anew_with_test && of != Some(two.of) { 0.0 } else { sum };
        of = Some(two.of);
        100.0 * sum > two.own_area
    })
}

/// Of all tests of the second edition, if a program would not begin anew with every one.
fn own_of_all(c: &Coverage) -> f64 {
    let (mut total, mut last) = (0.0, None);
    for two in c.twos.iter().filter(|two| is(two, SECOND_EDITION)) {
        total += if last == Some(two.of) { 0.0 } else { two.own_area };
        last = Some(two.of);
    }
    total
}
