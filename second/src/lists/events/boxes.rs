//! What a program that skips by boxes could do unseen, to the list or to its number of tested pairs.

use super::Event;
use crate::coverage::boxes::{Boxes, Side, ABOVE, BELOW, LEFT, RIGHT};
use crate::footprint::stored::TEST;
use crate::lists::coverage::boxes::Two;
use crate::lists::coverage::Coverage;

pub const TESTED: [Event; 14] = [
    ("0 of some pairs", |c| c.tested() == 0 && c.triangle_pairs() > 0),
    ("1", |c| c.tested() == 1),
    ("2 to 9", |c| (2..10).contains(&c.tested())),
    ("10 to 99", |c| (10..100).contains(&c.tested())),
    ("100 to 999", |c| (100..1_000).contains(&c.tested())),
    ("1,000 or more", |c| c.tested() >= 1_000),
    ("all of several", |c| c.tested() > 1 && c.tested() == c.triangle_pairs()),
    ("all but one of several", |c| c.tested() > 1 && c.tested() + 1 == c.triangle_pairs()),
    ("some, of which none overlaps or touches", |c| {
        c.tested() > 0 && c.leaks().is_empty() && c.touching() == 0
    }),
    ("of several pairs of recordings", |c| with_near(c) > 1),
    ("of all of two tests and two trainings or more", |c| {
        let (tests, trainings) = (c.recordings_of(TEST), c.trainings());
        tests > 1 && trainings > 1 && with_near(c) == tests * trainings
    }),
    ("behind an overlapping pair of the same recordings", |c| c.pairs.tested_behind),
    ("of recordings that only touch", |c| c.any(|two| two.counts.only_touch())),
    ("of recordings that are apart", |c| {
        c.any(|two| !two.near.is_empty() && !two.counts.overlap() && !two.counts.only_touch())
    }),
];

/// Of a test and a training recording, each around all its triangles.
pub const OWN_BOXES: [Event; 30] = [
    ("apart in x alone", |c| own(c, |b| b.far_along(0) && !b.far_along(1))),
    ("apart in y alone", |c| own(c, |b| !b.far_along(0) && b.far_along(1))),
    ("apart in x and in y", |c| own(c, |b| b.far_along(0) && b.far_along(1))),
    ("near, and no triangles'", |c| c.any(|two| two.own().near() && two.near.is_empty())),
    ("near, and all triangles'", |c| c.any(|two| two.near.len() == two.pairs() && two.pairs() > 1)),
    ("an edge in common, test on the left", |c| edge(c, LEFT)),
    ("an edge in common, test on the right", |c| edge(c, RIGHT)),
    ("an edge in common, test below", |c| edge(c, BELOW)),
    ("an edge in common, test above", |c| edge(c, ABOVE)),
    ("a corner in common, test lower left", |c| corner(c, LEFT, BELOW)),
    ("a corner in common, test lower right", |c| corner(c, RIGHT, BELOW)),
    ("a corner in common, test upper left", |c| corner(c, LEFT, ABOVE)),
    ("a corner in common, test upper right", |c| corner(c, RIGHT, ABOVE)),
    ("an edge or a corner in common, no triangles near", |c| {
        c.any(|two| two.own().share_a_border() && two.near.is_empty())
    }),
    ("a centimetre apart, test on the left", |c| own(c, |b| b.a_centimetre_apart(LEFT))),
    ("a centimetre apart, test on the right", |c| own(c, |b| b.a_centimetre_apart(RIGHT))),
    ("a centimetre apart, test below", |c| own(c, |b| b.a_centimetre_apart(BELOW))),
    ("a centimetre apart, test above", |c| own(c, |b| b.a_centimetre_apart(ABOVE))),
    ("test's within training's", |c| c.any(|two| two.own().u_within() && !two.near.is_empty())),
    ("training's within test's", |c| c.any(|two| two.own().v_within() && !two.near.is_empty())),
    ("one within the other, no triangles near", |c| {
        c.any(|two| (two.own().u_within() || two.own().v_within()) && two.near.is_empty())
    }),
    ("equal", |c| own(c, |b| b.equal())),
    ("a test triangle at an empty corner", |c| c.any(|two| two.at_an_empty_corner(0))),
    ("a training triangle at an empty corner", |c| c.any(|two| two.at_an_empty_corner(1))),
    ("the first test triangle alone reaches the other", |c| reaches(c, 0, |k, _| k == 0)),
    ("the first training triangle alone reaches it", |c| reaches(c, 1, |k, _| k == 0)),
    ("the last test triangle alone reaches the other", |c| reaches(c, 0, |k, count| k + 1 == count)),
    ("the last training triangle alone reaches it", |c| reaches(c, 1, |k, count| k + 1 == count)),
    ("a test triangle amid others alone reaches it", |c| reaches(c, 0, |k, count| k > 0 && k + 1 < count)),
    ("a training triangle amid others alone reaches it", |c| {
        reaches(c, 1, |k, count| k > 0 && k + 1 < count)
    }),
];

/// Of the triangles of a test and a training recording.
pub const TRIANGLE_BOXES: [Event; 14] = [
    ("an edge in common, test on the left", |c| some(c, |b| b.share_an_edge(LEFT))),
    ("an edge in common, test on the right", |c| some(c, |b| b.share_an_edge(RIGHT))),
    ("an edge in common, test below", |c| some(c, |b| b.share_an_edge(BELOW))),
    ("an edge in common, test above", |c| some(c, |b| b.share_an_edge(ABOVE))),
    ("a corner in common, test lower left", |c| some(c, |b| b.share_a_corner(LEFT, BELOW))),
    ("a corner in common, test lower right", |c| some(c, |b| b.share_a_corner(RIGHT, BELOW))),
    ("a corner in common, test upper left", |c| some(c, |b| b.share_a_corner(LEFT, ABOVE))),
    ("a corner in common, test upper right", |c| some(c, |b| b.share_a_corner(RIGHT, ABOVE))),
    ("a centimetre apart, test on the left", |c| some(c, |b| b.a_centimetre_apart(LEFT))),
    ("a centimetre apart, test on the right", |c| some(c, |b| b.a_centimetre_apart(RIGHT))),
    ("a centimetre apart, test below", |c| some(c, |b| b.a_centimetre_apart(BELOW))),
    ("a centimetre apart, test above", |c| some(c, |b| b.a_centimetre_apart(ABOVE))),
    ("apart, else overlapping", |c| c.pairs.else_overlapping),
    ("apart, else touching", |c| c.pairs.else_touching),
];

/// Of a place, and of how many there are.
type Place = fn(usize, usize) -> bool;

/// Where the only triangle of a recording stands that is near any of the other's: at the ends of blocks by
/// which a program may skip.
pub const PLACES: [(&str, Place); 6] = [
    ("alone begins another eight", |k, _| k > 0 && k % 8 == 0),
    ("alone ends eight", |k, _| k % 8 == 7),
    ("alone begins another sixteen", |k, _| k > 0 && k % 16 == 0),
    ("alone ends sixteen", |k, _| k % 16 == 15),
    ("alone ends what is left of eights", |k, count| count > 8 && count % 8 != 0 && k + 1 == count),
    ("alone ends what is left of sixteens", |k, count| count > 16 && count % 16 != 0 && k + 1 == count),
];

/// How many triangles a recording with a near one has: from the one to the other.
pub const COUNTS: [(usize, usize); 12] = [
    (1, 1),
    (2, 2),
    (7, 7),
    (8, 8),
    (9, 9),
    (15, 15),
    (16, 16),
    (17, 17),
    (31, 31),
    (32, 32),
    (33, 33),
    (48, usize::MAX),
];

/// The test recording and the training recording, as `Two` numbers them.
pub const SIDES: [(usize, &str); 2] = [(0, "test"), (1, "training")];

pub fn alone_at(c: &Coverage, side: usize, place: Place) -> bool {
    c.any(|two| two.only_near(side).map_or(false, |k| place(k, two.triangles_of(side))))
}

pub fn of_so_many(c: &Coverage, side: usize, (least, most): (usize, usize)) -> bool {
    c.any(|two| !two.near.is_empty() && (least..=most).contains(&two.triangles_of(side)))
}

fn with_near(c: &Coverage) -> usize {
    c.twos.iter().filter(|two| !two.near.is_empty()).count()
}

fn own(c: &Coverage, lie: fn(&Boxes) -> bool) -> bool {
    c.any(|two| lie(&two.own()))
}

fn some(c: &Coverage, lie: fn(&Boxes) -> bool) -> bool {
    c.any(|two| two.some(lie))
}

/// Of recordings with a near pair, which would be lost.
fn edge(c: &Coverage, side: Side) -> bool {
    c.any(|two| two.own().share_an_edge(side) && !two.near.is_empty())
}

fn corner(c: &Coverage, x: Side, y: Side) -> bool {
    c.any(|two| two.own().share_a_corner(x, y) && !two.near.is_empty())
}

fn reaches(c: &Coverage, side: usize, place: Place) -> bool {
    c.any(|two: &Two| two.only_reaching(side).map_or(false, |k| place(k, two.triangles_of(side))))
}
