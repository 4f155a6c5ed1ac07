//! Well-known text goes in, the triangles that it shows come out, in whole centimetres. It knows nothing of
//! how a text is written, and takes none that is written otherwise than the rules say.

use std::str::FromStr;

use crate::files::draft::Triangle;

/// None where something is too much, missing or not as it must be.
pub fn triangles_in(text: &str) -> Option<Vec<Triangle>> {
    let polygons = text.strip_prefix("GEOMETRYCOLLECTION (")?.strip_suffix(')')?;
    let mut rest = polygons;
    let mut triangles = Vec::new();
    loop {
        let (ring, behind) = rest.strip_prefix("POLYGON ((")?.split_once("))")?;
        triangles.push(triangle_of(ring)?);
        if behind.is_empty() {
            return Some(triangles);
        }
        rest = behind.strip_prefix(", ")?;
    }
}

/// Four points, of which the last is the first.
fn triangle_of(ring: &str) -> Option<Triangle> {
    let mut points = ring.split(", ").map(point_of);
    let [a, b, c, d] = [points.next()??, points.next()??, points.next()??, points.next()??];
    (points.next().is_none() && a == d).then(|| [a[0], a[1], b[0], b[1], c[0], c[1]])
}

fn point_of(text: &str) -> Option<[i32; 2]> {
    let (x, y) = text.split_once(' ')?;
    Some([centimetres(x)?, centimetres(y)?])
}

/// Metres without needless zeros, a point, two digits; a minus only where it is one.
fn centimetres(text: &str) -> Option<i32> {
    let (below_zero, size) = match text.strip_prefix('-') {
        Some(size) => (true, size),
        None => (false, text),
    };
    let (metres, decimals) = size.split_once('.')?;
    let needless = metres.len() > 1 && metres.starts_with('0');
    if needless || decimals.len() != 2 {
        return None;
    }
    let size = 100 * whole(metres)? + whole(decimals)?;
    match (below_zero, size) {
        (true, 0) => None,
        (true, _) => Some(-size),
        (false, _) => Some(size),
    }
}

/// Digits alone, one to five of them.
fn whole(digits: &str) -> Option<i32> {
    let good = (1..=5).contains(&digits.len()) && digits.bytes().all(|byte| byte.is_ascii_digit());
    i32::from_str(digits).ok().filter(|_| good)
}

#[cfg(test)]
mod tests {
    use super::*;

    #[test]
    fn numbers() {
        let good = [("0.00", 0), ("-0.05", -5), ("1.50", 150), ("-10000.00", -1_000_000), ("20.07", 2_007)];
        for (text, value) in good {
            assert_eq!(centimetres(text), Some(value), "{text}");
        }
        let bad = "-0.00,+1.00,01.00,00.00,.50,1.,1,1.5,1.500,-,--1.00,1.-5,1.+5, 1.00,1.00 ,1e2.00,١.00,";
        for text in bad.split(',') {
            assert_eq!(centimetres(text), None, "'{text}'");
        }
    }

    const ONE: &str = "POLYGON ((0.00 0.00, 4.00 0.00, 0.00 -0.05, 0.00 0.00))";

    #[test]
    fn collections() {
        let triangle = [0, 0, 400, 0, 0, -5];
        let text = |polygons: &str| format!("GEOMETRYCOLLECTION ({polygons})");
        assert_eq!(triangles_in(&text(ONE)), Some(vec![triangle]));
        assert_eq!(triangles_in(&text(&format!("{ONE}, {ONE}"))), Some(vec![triangle; 2]));
        let bad = [
            String::new(),
            ONE.to_string(),
            text(""),
            text(ONE) + "\n",
            text(ONE) + "\0",
            format!(" {}", text(ONE)),
            text(&format!("{ONE},{ONE}")),
            text(&format!("{ONE} {ONE}")),
            text(&format!("{ONE}, ")),
            text(&format!("{ONE})")),
            text(&ONE.replace("))", ")")),
            text(&ONE.replace("((", "(")),
            text(&ONE.replace(", 0.00 0.00))", "))")),
            text(&ONE.replace(", 0.00 0.00))", ", 0.00 0.01))")),
            text(&ONE.replace("))", ", 0.00 0.00))")),
            text(&ONE.replace(", ", ",")),
            text(&ONE.replace("4.00 ", "4.00  ")),
            text(&ONE.replace("4.00 0.00", "4.00 0.00 0.00")),
            text(&ONE.replace("POLYGON ", "POLYGON")),
            text(&ONE.replace("POLYGON", "polygon")),
        ];
        for text in bad {
            assert_eq!(triangles_in(&text), None, "{text:?}");
        }
    }
}
