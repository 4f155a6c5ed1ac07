//! Numbers whose texts are known, at every change of sign and width, and triangles of such numbers.

use crate::files::draft::{Draft, Triangle};
use crate::files::shapes::not_flat;
use crate::footprint::FARTHEST;
use crate::random::Random;

/// Worked by hand: centimetres, and metres with two decimals.
pub const KNOWN: [(i32, &str); 45] = [
    (-1_000_000, "-10000.00"),
    (-999_999, "-9999.99"),
    (-999_900, "-9999.00"),
    (-123_456, "-1234.56"),
    (-100_001, "-1000.01"),
    (-100_000, "-1000.00"),
    (-99_999, "-999.99"),
    (-10_001, "-100.01"),
    (-10_000, "-100.00"),
    (-9_999, "-99.99"),
    (-1_001, "-10.01"),
    (-1_000, "-10.00"),
    (-999, "-9.99"),
    (-101, "-1.01"),
    (-100, "-1.00"),
    (-99, "-0.99"),
    (-11, "-0.11"),
    (-10, "-0.10"),
    (-9, "-0.09"),
    (-5, "-0.05"),
    (-1, "-0.01"),
    (0, "0.00"),
    (1, "0.01"),
    (5, "0.05"),
    (9, "0.09"),
    (10, "0.10"),
    (11, "0.11"),
    (99, "0.99"),
    (100, "1.00"),
    (101, "1.01"),
    (999, "9.99"),
    (1_000, "10.00"),
    (1_001, "10.01"),
    (7_080, "70.80"),
    (9_999, "99.99"),
    (10_000, "100.00"),
    (10_001, "100.01"),
    (99_999, "999.99"),
    (100_000, "1000.00"),
    (100_001, "1000.01"),
    (100_203, "1002.03"),
    (987_654, "9876.54"),
    (999_001, "9990.01"),
    (999_999, "9999.99"),
    (1_000_000, "10000.00"),
];

/// A good triangle whose numbers have known texts, so that any of the six may be another known one: then it
/// is good as well. (It would be flat with 875 in the first place, −4,100 in the fourth, −2,100 in the fifth or
/// 725 in the last.)
pub const BESIDE: Triangle = [300, 700, 1_100, 500, 200, 1_300];
pub const BESIDE_TEXT: [&str; 6] = ["3.00", "7.00", "11.00", "5.00", "2.00", "13.00"];

/// The triangle with a known number in the place of one of its own.
pub fn beside(number: i32, place: usize) -> Triangle {
    let mut triangle = BESIDE;
    triangle[place] = number;
    triangle
}

/// A good file with every known number in every place, a recording for each.
pub fn file_of_known() -> Vec<u8> {
    let triangles: Vec<Triangle> =
        KNOWN.iter().flat_map(|known| (0..6).map(move |place| beside(known.0, place))).collect();
    let ids: Vec<u32> = (0..KNOWN.len() as u32).collect();
    let sets: Vec<u8> = ids.iter().map(|id| (id % 3) as u8).collect();
    Draft::of(&ids, &[6; KNOWN.len()], &sets, triangles).bytes()
}

pub fn at_changes(random: &mut Random) -> Triangle {
    not_flat(random, |r| r.pick(&KNOWN).0)
}

pub fn below_a_metre(random: &mut Random) -> Triangle {
    not_flat(random, |r| r.between(-99, 99))
}

/// Each width is as likely as any other, and either sign.
pub fn of_any_width(random: &mut Random) -> Triangle {
    not_flat(random, |r| {
        let most = r.pick(&[9, 99, 999, 9_999, 99_999, 999_999, FARTHEST]);
        r.between(-most, most)
    })
}

pub fn widest(random: &mut Random) -> Triangle {
    const WIDE: [i32; 6] = [-FARTHEST, -FARTHEST, -FARTHEST, FARTHEST, -999_999, -100_000];
    not_flat(random, |r| r.pick(&WIDE))
}

pub fn narrowest(random: &mut Random) -> Triangle {
    not_flat(random, |r| r.between(0, 999))
}

#[cfg(test)]
mod tests {
    use super::*;
    use crate::files::shapes::cross;
    use crate::footprint::judge;

    #[test]
    fn good_with_every_known_number_in_every_place() {
        assert_ne!(cross(BESIDE), 0);
        assert_eq!(judge(&file_of_known()).number, 0);
    }

    /// By a way that has nothing in common with any program here.
    #[test]
    fn texts_are_as_known() {
        assert!(KNOWN.windows(2).all(|two| two[0].0 < two[1].0));
        for (number, text) in KNOWN {
            assert_eq!(format!("{:.2}", f64::from(number) / 100.0), text);
        }
    }
}
