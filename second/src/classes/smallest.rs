//! Zeros of both signs, and sizes at which products and crosses lose their last bits.

use crate::case::{point, times_power_of_two, Pair};
use crate::classes::ordinary;
use crate::random::Random;

/// Few different coordinates, most of them a zero of either sign, so that crosses, t and
/// positions come out as −0.0.
pub fn signed_zeros(random: &mut Random) -> Pair {
    let reach = random.between(1, 3);
    let mut coordinate = || match random.below(4) {
        0 => 0.0,
        1 => -0.0,
        _ => f64::from(random.between(-reach, reach)),
    };
    let mut vertex = || point(coordinate(), coordinate());
    Pair { u: [0; 3].map(|_| vertex()), v: [0; 3].map(|_| vertex()) }
}

/// Ordinary sizes beside tiny ones: a parameter that is minus in truth can round to −0.0.
pub fn underflowing_parameters(random: &mut Random) -> Pair {
    let tiny = random.between(-1074, -500);
    let pair = ordinary::small_grid(random).shuffled(random);
    let centre = point(f64::from(random.between(0, 3)), f64::from(random.between(0, 3)));
    let rare = random.between(2, 4) as usize;
    let power_for =
        |random: &mut Random| if random.once_in(rare) { tiny } else { random.pick(&[0, 0, -300, -530]) };
    pair.map(|p| {
        let (x_power, y_power) = (power_for(random), power_for(random));
        point(times_power_of_two(p.x - centre.x, x_power), times_power_of_two(p.y - centre.y, y_power))
    })
}

/// Crosses are whole multiples of the smallest value above zero, and that of U is this value itself, of
/// which half is zero. V is U, or U drawn larger, or any.
pub fn smallest_areas(random: &mut Random) -> Pair {
    let other = ordinary::small_grid(random);
    let mut corner = || [random.between(-3, 3), random.between(-3, 3)];
    let [a, b] = loop {
        let [a, b] = [corner(), corner()];
        if (a[0] * b[1] - a[1] * b[0]).abs() == 1 {
            break [a, b];
        }
    };
    let at = |part: [i32; 2], times: i32| point(f64::from(part[0] * times), f64::from(part[1] * times));
    let times = random.pick(&[1, 1, 2, 3, -1]);
    let u = [at([0, 0], 1), at(a, 1), at(b, 1)];
    let v = if random.once_in(3) { other.v } else { [at([0, 0], 1), at(a, times), at(b, times)] };
    let power = if random.once_in(2) { -537 } else { random.between(-900, -174) };
    Pair { u, v }.shuffled(random).scaled(power, -1074 - power)
}

/// An ordinary pair at the sizes where coordinates, d, a parameter or a pair test underflow.
pub fn scaled_down(random: &mut Random) -> Pair {
    let pair = ordinary::any(random);
    let exponent = match random.below(5) {
        0 => random.between(-1080, -1020),
        1 | 2 => random.between(-545, -505),
        _ => random.between(-280, -250),
    };
    let stretch = if random.once_in(2) { random.between(-200, 200) } else { 0 };
    pair.scaled_to(exponent).scaled(stretch, -stretch)
}
