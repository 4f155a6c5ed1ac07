//! The classes of pairs that a comparison draws from.

mod boxes;
pub mod decisions;
mod flat;
pub mod formulas;
mod long;
mod magnitudes;
mod near;
pub mod needles;
pub mod ordinary;
mod refused;
mod smallest;
mod stages;
pub mod touching;
pub mod worked;

use crate::case::Case;
use crate::random::Random;

/// Its name, its weight, and how a case of it is made.
pub struct Class(&'static str, usize, fn(&mut Random) -> Case);

impl Class {
    pub fn name(&self) -> &'static str {
        self.0
    }

    /// How many of all the weights' sum belong to this class.
    fn weight(&self) -> usize {
        self.1
    }

    pub fn case(&self, random: &mut Random) -> Case {
        (self.2)(random)
    }
}

pub const CLASSES: [Class; 41] = [
    Class("worked cases", 2, worked::any),
    Class("uniform, whole centimetres", 20, |r| ordinary::whole_centimetres(r).case(r)),
    Class("uniform, real values", 8, |r| ordinary::real_values(r).case(r)),
    Class("small grids", 14, |r| ordinary::small_grid(r).shuffled(r).case(r)),
    Class("shared corners", 4, |r| touching::shared_corner(r).shuffled(r).case(r)),
    Class("shared edges", 4, |r| touching::shared_edge(r).shuffled(r).case(r)),
    Class("vertices on lines", 8, |r| touching::vertices_on_lines(r).shuffled(r).case(r)),
    Class("collinear edges", 4, |r| touching::collinear_edges(r).shuffled(r).case(r)),
    Class("parts of edges", 5, |r| touching::part_of_an_edge(r).shuffled(r).case(r)),
    Class("identical triangles", 2, |r| touching::identical(r).shuffled(r).case(r)),
    Class("touching, some ulps off", 10, |r| near::nudged(r).case(r)),
    Class("touching, mapped and rounded", 8, |r| near::mapped(r).case(r)),
    Class("slivers", 6, |r| near::slivers(r).case(r)),
    Class("signed zeros", 6, |r| smallest::signed_zeros(r).case(r)),
    Class("parameters underflow to zero", 5, |r| smallest::underflowing_parameters(r).case(r)),
    Class("scaled towards underflow", 6, |r| smallest::scaled_down(r).case(r)),
    Class("areas of the smallest value", 2, |r| smallest::smallest_areas(r).case(r)),
    Class("scaled towards overflow of d", 3, |r| magnitudes::towards_d(r).case(r)),
    Class("scaled towards overflow of e", 3, |r| magnitudes::towards_e(r).case(r)),
    Class("overflow at a parameter", 4, |r| stages::parameter(r).case(r)),
    Class("scaled towards pair tests", 8, |r| magnitudes::towards_pair_tests(r).case(r)),
    Class("pair tests of unlike size", 8, |r| stages::unlike_pair_tests(r).case(r)),
    Class("denominators of t", 6, |r| stages::denominator(r).case(r)),
    Class("overflow of Q - P", 6, |r| long::position(r).case(r)),
    Class("overflow at the area", 6, |r| long::area(r).case(r)),
    Class("mixed magnitudes", 5, |r| magnitudes::mixed(r).case(r)),
    Class("flat V", 2, |r| flat::flat_v(r).case(r)),
    Class("flat U", 2, |r| flat::flat_u(r).case(r)),
    Class("flat but for rounding", 3, |r| flat::flat_but_for_rounding(r).case(r)),
    Class("not finite", 3, refused::not_finite),
    Class("wrong lengths", 3, refused::wrong_lengths),
    Class("two faults", 3, refused::two_faults),
    Class("boxes with an edge in common", 4, |r| boxes::common_edge(r).case(r)),
    Class("boxes with a corner in common", 4, |r| boxes::common_corner(r).case(r)),
    Class("boxes that are equal or one in the other", 3, |r| boxes::equal_or_within(r).case(r)),
    Class("boxes an ulp apart", 3, |r| boxes::an_ulp_apart(r).case(r)),
    Class("boxes a centimetre apart", 3, |r| boxes::a_centimetre_apart(r).case(r)),
    Class("flat, with near boxes and with far ones", 8, |r| boxes::flat(r).case(r)),
    Class("overflowing, with near boxes and with far ones", 6, |r| boxes::overflowing(r).case(r)),
    Class("not finite, with near boxes and with far ones", 3, boxes::not_finite),
    Class("beyond the tip of a needle", 4, |r| needles::of_any_size(r).case(r)),
];

/// A class by its weight.
pub fn draw(random: &mut Random) -> usize {
    let total: usize = CLASSES.iter().map(Class::weight).sum();
    let mut rest = random.below(total);
    for (index, class) in CLASSES.iter().enumerate() {
        if rest < class.weight() {
            return index;
        }
        rest -= class.weight();
    }
    unreachable!("the rest is below the sum of the weights")
}
