//! Every number that a file can hold, in every place of a triangle.

use crate::files::draft::{Draft, Triangle};
use crate::files::good::most_triangles;
use crate::footprint::FARTHEST;

/// How many numbers there are.
const ALL: u64 = 2 * FARTHEST as u64 + 1;

/// By the place: the first number, and the step from one triangle to the next. A step has no divisor in common
/// with the number of numbers, so that each place goes through them all, and no triangle happens to be flat.
const STEPS: [(u64, u64); 6] =
    [(0, 1), (5, 1_299_709), (77, 611_953), (1_234, 104_729), (500_000, 1_000_003), (31, 350_377)];

fn triangle(k: u64) -> Triangle {
    STEPS.map(|(first, step)| ((first + k * step) % ALL) as i32 - FARTHEST)
}

/// How many files it takes.
pub const FILES: u64 = 733;

/// One of the files: a recording of as many triangles as it can have, with its id.
pub fn file(number: u64) -> (Vec<u8>, u32) {
    let most = most_triangles(1) as u64;
    let first = most * number;
    let triangles: Vec<Triangle> = (first..ALL.min(first + most)).map(triangle).collect();
    let (id, set) = (first as u32, (number % 3) as u8);
    (Draft::of(&[id], &[triangles.len() as u16], &[set], triangles).bytes(), id)
}

#[cfg(test)]
mod tests {
    use super::*;
    use crate::footprint::judge;

    #[test]
    fn every_place_has_every_number() {
        let mut seen = vec![0u8; ALL as usize];
        for k in 0..ALL {
            for (place, number) in triangle(k).into_iter().enumerate() {
                seen[(number + FARTHEST) as usize] |= 1 << place;
            }
        }
        assert!(seen.iter().all(|places| *places == 63));
    }

    /// The comparison finds the others good.
    #[test]
    fn some_are_good() {
        let most = most_triangles(1) as u64;
        assert!((FILES - 1) * most < ALL && ALL <= FILES * most);
        assert!((0..FILES).step_by(61).all(|number| judge(&file(number).0).number == 0));
    }
}
