//! Tracks of boats: strips of triangles that cross, lie side by side along a common bank, or apart.

use super::recordings::{file_of, placed, sets, Part};
use crate::files::draft::Triangle;
use crate::files::shapes::cross;
use crate::random::Random;

type Bank = Vec<[i32; 2]>;

/// One to three tracks on the same banks, one across them, one far off; in any order.
pub fn file(random: &mut Random) -> Vec<u8> {
    let steps = 1 + random.below(5);
    let course = [0; 2].map(|_| random.pick(&[1, -1]) * random.between(20, 60));
    let across = [-course[1], course[0]];
    let mut parts: Vec<Part> = Vec::new();
    let banks = banks(random, [0, 0], course, steps);
    for pair in banks.windows(2).take(1 + random.below(3)) {
        parts.push(strip(&pair[0], &pair[1]));
    }
    if random.once_in(2) {
        let start = [0, 1].map(|axis| 2 * course[axis] - 3 * across[axis]);
        let banks = self::banks(random, start, across, steps);
        parts.push(strip(&banks[0], &banks[1]));
    }
    if random.once_in(3) {
        let banks = self::banks(random, [900, -1_500], course, steps);
        parts.push(strip(&banks[0], &banks[1]));
    }
    parts.retain(|part| !part.is_empty());
    placed(&mut parts, random);
    random.shuffle(&mut parts);
    let sets = sets(random, parts.len());
    file_of(&parts, &sets, random)
}

/// Four lines of points beside one another, along a course that bends.
fn banks(random: &mut Random, start: [i32; 2], course: [i32; 2], steps: usize) -> [Bank; 4] {
    let width = random.between(30, 80);
    let mut position = start;
    let mut banks: [Bank; 4] = Default::default();
    for _ in 0..=steps {
        for (k, bank) in banks.iter_mut().enumerate() {
            let aside = width * k as i32;
            bank.push([position[0] - aside * course[1] / 40, position[1] + aside * course[0] / 40]);
        }
        position = [0, 1].map(|axis| position[axis] + course[axis] + random.between(-8, 8));
    }
    banks
}

/// Two triangles a step; none that is flat.
fn strip(left: &[[i32; 2]], right: &[[i32; 2]]) -> Part {
    let mut triangles: Vec<Triangle> = Vec::new();
    for k in 1..left.len() {
        let (a, b, c, d) = (left[k - 1], right[k - 1], left[k], right[k]);
        triangles.push([a[0], a[1], b[0], b[1], c[0], c[1]]);
        triangles.push([b[0], b[1], d[0], d[1], c[0], c[1]]);
    }
    triangles.retain(|triangle| cross(*triangle) != 0);
    triangles
}
