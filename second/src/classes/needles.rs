//! Pairs that truly are apart, and far by their boxes, but that the triangle rules often give a ring.

use crate::case::{point, Pair};
use crate::files::shapes::bezout;
use crate::random::Random;
use crate::triangles::numbers::Point;

/// As far as a file's coordinates go.
const FARTHEST: i32 = 1_000_000;

/// V is as long as a file allows, has a cross of 1 or 2, and its tip, the uppermost of its corners, at zero.
/// An edge of U passes some centimetres above the tip. Then the products of a pair test are up to 10^24, and
/// their true difference is about as large as that edge is long: rounding decides which line is met first.
pub fn beyond_the_tip(random: &mut Random) -> Pair {
    let v = needle(random);
    let height = random.pick(&[1, 1, 2, 4, 10]);
    let mut above = |low: i32, high: i32, most: i32| {
        point(f64::from(random.between(low, high)), f64::from(random.between(1, most)))
    };
    let u = [above(-FARTHEST, -1, height), above(1, FARTHEST, height), above(-FARTHEST, FARTHEST, FARTHEST)];
    Pair { u, v }
}

/// Both other corners below the tip, and on the same side.
fn needle(random: &mut Random) -> [Point; 3] {
    loop {
        let leg = [random.between(FARTHEST / 3, FARTHEST), random.between(1, FARTHEST)].map(i64::from);
        let (divisor, by) = bezout(leg[0], leg[1]);
        // Some whole number of legs farther along the cross is the same.
        let cross = i64::from(random.between(1, 2));
        let from = i64::from(random.between(FARTHEST / 10, FARTHEST));
        let legs = (from - cross * by[0]).div_euclid(leg[0]);
        let other = [0, 1].map(|axis| cross * by[axis] + legs * leg[axis]);
        let within = other.iter().all(|value| (1..=i64::from(FARTHEST)).contains(value));
        if divisor == 1 && within {
            let corner = |[x, y]: [i64; 2]| point(-x as f64, -y as f64);
            return [corner(leg), corner(other), point(0.0, 0.0)];
        }
    }
}

/// Larger or smaller by powers of two, along either axis, which all steps of the rules go along with.
pub fn of_any_size(random: &mut Random) -> Pair {
    let pair = beyond_the_tip(random);
    let powers = [0; 2].map(|_| if random.once_in(2) { 0 } else { random.between(-60, 60) });
    pair.scaled(powers[0], powers[1]).shuffled(random)
}

#[cfg(test)]
mod tests {
    use super::*;
    use crate::decision::is_far;
    use crate::triangles::{intersect, ROOM};

    #[test]
    fn rounding_gives_many_a_ring() {
        let mut random = Random::new(3);
        let (mut with_area, mut without) = (0, 0);
        for _ in 0..1_000 {
            let values = of_any_size(&mut random).values();
            assert!(is_far(&values));
            let answer = intersect(&values, &mut [0.0; ROOM]);
            with_area += usize::from(answer.area > 0.0);
            without += usize::from(answer.n > 0 && answer.area == 0.0);
        }
        assert!(with_area > 50 && without > 50, "{with_area} and {without}");
    }
}
