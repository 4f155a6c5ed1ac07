//! The longest texts that there are.

use crate::files::draft::{Draft, Triangle};
use crate::files::good::most_triangles;
use crate::footprint::FARTHEST;

/// Only −1,000,000 has nine characters, and no number has more than eight else. Two vertices with two such
/// numbers would be one; so it is once in the other two at most, and if both have it on the same axis as the
/// first, they lie on a line. The first vertex, which is written twice, has to be the one with two of them: six
/// numbers of nine characters and two of eight, here of four kinds.
pub const WIDEST: [Triangle; 4] = [
    [-FARTHEST, -FARTHEST, -FARTHEST, FARTHEST, FARTHEST, -FARTHEST],
    [-FARTHEST, -FARTHEST, FARTHEST, -FARTHEST, -FARTHEST, FARTHEST],
    [-FARTHEST, -FARTHEST, -FARTHEST, -100_000, -999_999, -FARTHEST],
    [-FARTHEST, -FARTHEST, -123_456, -FARTHEST, -FARTHEST, -987_654],
];

/// The id of the recording in the longest file.
pub const ID: u32 = 4_294_967_295;

/// As many triangles as one recording can have, all of them the widest.
pub fn file() -> Vec<u8> {
    let count = most_triangles(1);
    let triangles: Vec<Triangle> = WIDEST.iter().cycle().take(count).copied().collect();
    Draft::of(&[ID], &[count as u16], &[0], triangles).bytes()
}

/// Its text, put together from texts that are known.
pub fn text() -> String {
    const POLYGONS: [&str; 4] = [
        "POLYGON ((-10000.00 -10000.00, -10000.00 10000.00, 10000.00 -10000.00, -10000.00 -10000.00))",
        "POLYGON ((-10000.00 -10000.00, 10000.00 -10000.00, -10000.00 10000.00, -10000.00 -10000.00))",
        "POLYGON ((-10000.00 -10000.00, -10000.00 -1000.00, -9999.99 -10000.00, -10000.00 -10000.00))",
        "POLYGON ((-10000.00 -10000.00, -1234.56 -10000.00, -10000.00 -9876.54, -10000.00 -10000.00))",
    ];
    let polygons: Vec<&str> = POLYGONS.iter().cycle().take(most_triangles(1)).copied().collect();
    format!("GEOMETRYCOLLECTION ({})", polygons.join(", "))
}

#[cfg(test)]
mod tests {
    use super::*;
    use crate::files::shapes::cross;

    /// Of all choices of numbers that are the widest, nearly so or narrow, none that is a triangle is wider.
    #[test]
    fn no_triangle_is_wider() {
        const NUMBERS: [(i32, usize); 5] =
            [(-FARTHEST, 9), (FARTHEST, 8), (-999_999, 8), (-100_000, 8), (0, 4)];
        let mut most = 0;
        for choice in 0..NUMBERS.len().pow(6) {
            let of = |place: u32| NUMBERS[choice / NUMBERS.len().pow(place) % NUMBERS.len()];
            let all = [of(0), of(1), of(2), of(3), of(4), of(5)];
            if cross(all.map(|number| number.0)) != 0 {
                let widths = all.map(|number| number.1);
                most = most.max(widths.iter().sum::<usize>() + widths[0] + widths[1]);
            }
        }
        assert_eq!(most, 6 * 9 + 2 * 8);
        // 20 for the opening, 22 beside the numbers of a polygon, 2 for a comma, 1 for the end
        assert_eq!(20 + 2_729 * (22 + most) + 2_728 * 2 + 1, 256_545);
        assert_eq!(text().len(), 256_545);
    }
}
