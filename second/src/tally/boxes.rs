//! What a program that reads boxes wrongly could do unseen unless a pair brings it about.

use super::Event;
use crate::coverage::boxes::{Boxes, Kind, Side, ABOVE, BELOW, LEFT, RIGHT};
use crate::coverage::Coverage;
use crate::decision::TOUCHING;
use crate::triangles::Refusal;

/// Near boxes count where the pair is not apart, so that it matters that the triangle rules were asked; far
/// ones where the triangle rules alone would not have said apart.
pub const BOXES: [Event; 44] = [
    ("an edge in common, U on the left", |c| edge(c, LEFT)),
    ("an edge in common, U on the right", |c| edge(c, RIGHT)),
    ("an edge in common, U below", |c| edge(c, BELOW)),
    ("an edge in common, U above", |c| edge(c, ABOVE)),
    ("a corner in common, U lower left", |c| corner(c, LEFT, BELOW)),
    ("a corner in common, U lower right", |c| corner(c, RIGHT, BELOW)),
    ("a corner in common, U upper left", |c| corner(c, LEFT, ABOVE)),
    ("a corner in common, U upper right", |c| corner(c, RIGHT, ABOVE)),
    ("the lower at -0.0, the upper at 0.0", |c| c.near_and_seen(|b| b.meet_at_zeros(true))),
    ("the lower at 0.0, the upper at -0.0", |c| c.near_and_seen(|b| b.meet_at_zeros(false))),
    ("equal", |c| c.near_and_seen(|b| b.equal())),
    ("U's within V's", |c| c.near_and_seen(|b| b.u_within())),
    ("V's within U's", |c| c.near_and_seen(|b| b.v_within())),
    ("an edge or a corner in common, touching", |c| {
        c.decided_as(TOUCHING) && c.boxes.map_or(false, |b| b.share_a_border())
    }),
    ("an edge or a corner in common, 3", |c| refused_at_the_border(c, 3)),
    ("an edge or a corner in common, 4", |c| refused_at_the_border(c, 4)),
    ("an edge or a corner in common, 5", |c| refused_at_the_border(c, 5)),
    ("an ulp apart, U on the left", |c| ulp(c, LEFT)),
    ("an ulp apart, U on the right", |c| ulp(c, RIGHT)),
    ("an ulp apart, U below", |c| ulp(c, BELOW)),
    ("an ulp apart, U above", |c| ulp(c, ABOVE)),
    ("an ulp apart at zero", |c| c.far_and_seen(|b| b.an_ulp_from_zero())),
    ("a centimetre apart, U on the left", |c| centimetre(c, LEFT)),
    ("a centimetre apart, U on the right", |c| centimetre(c, RIGHT)),
    ("a centimetre apart, U below", |c| centimetre(c, BELOW)),
    ("a centimetre apart, U above", |c| centimetre(c, ABOVE)),
    ("apart in x alone", |c| c.far_and_seen(|b| b.far_along(0) && !b.far_along(1))),
    ("apart in y alone", |c| c.far_and_seen(|b| !b.far_along(0) && b.far_along(1))),
    ("apart in x and in y", |c| c.far_and_seen(|b| b.far_along(0) && b.far_along(1))),
    ("apart, else 3", |c| else_refused(c, Refusal::FlatV)),
    ("apart, else 5", |c| else_refused(c, Refusal::FlatU)),
    ("apart, else 4 at d", |c| else_refused(c, Refusal::OverflowAtD)),
    ("apart, else 4 at e", |c| else_refused(c, Refusal::OverflowAtE)),
    ("apart, else 4 at a parameter", |c| else_refused(c, Refusal::OverflowAtParameter)),
    ("apart, else 4 at a pair test", |c| else_refused(c, Refusal::OverflowAtPairTest)),
    ("apart, else overlapping", |c| c.far() && c.has_a_ring() && c.ring_has_an_area()),
    ("apart, else touching", |c| c.far() && c.has_a_ring() && !c.ring_has_an_area()),
    ("apart, with a room too short for a ring", |c| c.far() && c.refusal == Some(Refusal::Length)),
    ("2, boxes with an infinity are near", |c| not_finite(c, Kind::Infinite, false)),
    ("2, boxes with an infinity are apart", |c| not_finite(c, Kind::Infinite, true)),
    ("2, boxes without a NaN are near", |c| not_finite(c, Kind::NotNumbers, false)),
    ("2, boxes without a NaN are apart", |c| not_finite(c, Kind::NotNumbers, true)),
    ("1, the boxes of twelve values are near", |c| too_many(c, false)),
    ("1, the boxes of twelve values are apart", |c| too_many(c, true)),
];

fn edge(c: &Coverage, side: Side) -> bool {
    c.near_and_seen(|b| b.share_an_edge(side))
}

fn corner(c: &Coverage, x: Side, y: Side) -> bool {
    c.near_and_seen(|b| b.share_a_corner(x, y))
}

fn refused_at_the_border(c: &Coverage, number: u32) -> bool {
    c.decision.number == number && c.boxes.map_or(false, |b| b.share_a_border())
}

fn ulp(c: &Coverage, side: Side) -> bool {
    c.far_and_seen(|b| b.an_ulp_apart(side))
}

fn centimetre(c: &Coverage, side: Side) -> bool {
    c.far_and_seen(|b| b.a_centimetre_apart(side))
}

fn else_refused(c: &Coverage, refusal: Refusal) -> bool {
    c.far() && c.refusal == Some(refusal)
}

fn not_finite(c: &Coverage, kind: Kind, apart: bool) -> bool {
    let lie = |b: Boxes| b.values == kind && if apart { b.far() } else { b.near() };
    c.decision.number == 2 && c.boxes.map_or(false, lie)
}

fn too_many(c: &Coverage, apart: bool) -> bool {
    c.decision.number == 1 && c.boxes.map_or(false, |b| if apart { b.far() } else { b.near() })
}
