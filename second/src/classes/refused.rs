//! Calls that the first rows of the refusals are for, one fault or two at a time.

use crate::case::{point, times_power_of_two, Case, Pair};
use crate::classes::flat::flat_triangle;
use crate::classes::ordinary;
use crate::random::Random;

/// Infinities, and NaNs quiet and signalling with either sign.
const NOT_FINITE: [u64; 7] = [
    0x7ff0_0000_0000_0000,
    0xfff0_0000_0000_0000,
    0x7ff8_0000_0000_0000,
    0xfff8_0000_0000_0000,
    0x7ff0_0000_0000_0001,
    0xfff0_0000_dead_beef,
    0x7fff_ffff_ffff_ffff,
];

pub fn spoil(values: &mut [f64], random: &mut Random) {
    let place = random.below(values.len());
    values[place] = f64::from_bits(random.pick(&NOT_FINITE));
}

pub fn not_finite(random: &mut Random) -> Case {
    let mut pair = ordinary::any(random);
    if random.once_in(6) {
        pair.v = flat_triangle(random);
    }
    let mut case = pair.case(random);
    for _ in 0..random.pick(&[1, 1, 1, 2, 3]) {
        spoil(&mut case.values, random);
    }
    case
}

/// Any lengths up to 30, the good ones now and then among them.
pub fn wrong_lengths(random: &mut Random) -> Case {
    let mut case = ordinary::any(random).case(random);
    let mut length = || if random.once_in(4) { 12 } else { random.below(31) };
    let (values, room_length) = (length(), length());
    case.room_length = room_length;
    set_length(&mut case, values);
    case
}

fn set_length(case: &mut Case, length: usize) {
    let known = case.values.clone();
    case.values = known.into_iter().cycle().take(length).collect();
}

/// Which of two faults is named shows the order in which they are tested.
pub fn two_faults(random: &mut Random) -> Case {
    let mut pair = ordinary::any(random);
    let faults = [random.below(7), random.below(7)];
    let has = |fault: usize| faults.contains(&fault);
    if has(0) {
        pair.v = flat_triangle(random);
    }
    if has(1) {
        pair.u = flat_triangle(random);
    }
    if has(2) {
        pair.v = Pair { u: pair.v, v: pair.v }.scaled_to(random.between(514, 1020)).v;
    }
    if has(3) {
        pair.u = Pair { u: pair.u, v: pair.u }.scaled_to(random.between(514, 1020)).u;
    }
    if has(4) {
        let far = times_power_of_two(random.sign(), 1023);
        pair.u = pair.u.map(|p| point(p.x + far, p.y));
    }
    let mut case = pair.case(random);
    if has(5) {
        spoil(&mut case.values, random);
    }
    if has(6) {
        match random.below(3) {
            0 => case.room_length = random.below(12),
            _ => set_length(&mut case, random.pick(&[0, 6, 11, 13, 24])),
        }
    }
    case
}
