//! Single f64 operations, each looked at for finiteness: None stands for a value on the way that
//! is not finite.

#[derive(Clone, Copy, Debug, PartialEq)]
pub struct Point {
    pub x: f64,
    pub y: f64,
}

#[inline]
pub fn finite(value: f64) -> Option<f64> {
    if value.is_finite() {
        Some(value)
    } else {
        None
    }
}

/// `to` − `from`, per component.
#[inline]
pub fn difference(to: Point, from: Point) -> Option<Point> {
    Some(Point { x: finite(to.x - from.x)?, y: finite(to.y - from.y)? })
}

/// The cross of (p,q) and (r,s): p·s − q·r.
#[inline]
pub fn cross(pq: Point, rs: Point) -> Option<f64> {
    let ps = finite(pq.x * rs.y)?;
    let qr = finite(pq.y * rs.x)?;
    finite(ps - qr)
}
