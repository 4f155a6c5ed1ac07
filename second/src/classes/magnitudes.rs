//! Ordinary pairs at sizes near the overflow of one stage or another.

use crate::case::{point, times_power_of_two, Pair};
use crate::classes::ordinary;
use crate::random::Random;

/// Products of two coordinates overflow from about here on, products of two crosses from half.
const PRODUCT: i32 = 512;
const CROSS_PRODUCT: i32 = 256;
const LARGEST: i32 = 1023;

/// x times a power of two and y divided by it: crosses stay what they are, differences do not.
pub fn stretched(pair: Pair, random: &mut Random) -> Pair {
    let power = if random.once_in(2) { random.between(-400, 400) } else { 0 };
    pair.scaled(power, -power)
}

pub fn towards_d(random: &mut Random) -> Pair {
    let exponent = if random.once_in(5) {
        random.between(LARGEST - 2, LARGEST)
    } else {
        PRODUCT + random.between(-4, 2)
    };
    let pair = ordinary::any(random).scaled_to(exponent);
    let u = if random.once_in(4) { ordinary::any(random).u } else { pair.u };
    stretched(Pair { u, v: pair.v }, random)
}

/// U large and V ordinary or small, at times so small that the parameters stay finite.
pub fn towards_e(random: &mut Random) -> Pair {
    let exponent = if random.once_in(5) {
        random.between(LARGEST - 2, LARGEST)
    } else {
        PRODUCT + random.between(-3, 3)
    };
    let pair = ordinary::any(random);
    let v = pair.scaled_to(random.between(-500, 20)).v;
    let u = pair.scaled_to(exponent).u;
    stretched(Pair { u, v }, random)
}

pub fn towards_pair_tests(random: &mut Random) -> Pair {
    let pair = ordinary::any(random);
    let exponent = if random.once_in(2) {
        CROSS_PRODUCT + random.between(-6, 2)
    } else {
        random.between(CROSS_PRODUCT, PRODUCT - 3)
    };
    stretched(pair.scaled_to(exponent), random)
}

/// Every coordinate of a size of its own, within a window of exponents.
pub fn mixed(random: &mut Random) -> Pair {
    let (low, high) = random.pick(&[(-1074, 1023), (-300, 300), (-40, 40), (-6, 6), (200, 270), (400, 520)]);
    let mut coordinate = || {
        if random.once_in(8) {
            return 0.0 * random.sign();
        }
        let mantissa = if random.once_in(2) { 1.0 } else { random.real(1.0, 2.0) };
        times_power_of_two(random.sign() * mantissa, random.between(low, high))
    };
    let mut vertex = || point(coordinate(), coordinate());
    Pair { u: [0; 3].map(|_| vertex()), v: [0; 3].map(|_| vertex()) }
}
