//! A vertex's parameters on V's three lines, and their signs.

use super::numbers::{cross, difference, finite, Point};

/// x, y and w of one vertex, by the number of the line.
pub type Parameters = [f64; 3];

/// The signs on the three lines of a vertex or of a stretch of an edge: a bit a line, set for plus.
#[derive(Clone, Copy, Debug, Default, PartialEq, Eq)]
pub struct Signs(u8);

impl Signs {
    pub const ALL_MINUS: Signs = Signs(0b000);
    pub const ALL_PLUS: Signs = Signs(0b111);

    pub fn of(x_plus: bool, y_plus: bool, w_plus: bool) -> Signs {
        Signs(u8::from(x_plus) | u8::from(y_plus) << 1 | u8::from(w_plus) << 2)
    }

    pub fn plus(self, line: usize) -> bool {
        self.0 >> line & 1 == 1
    }

    /// After the line has been crossed.
    pub fn across(self, line: usize) -> Signs {
        Signs(self.0 ^ 1 << line)
    }
}

/// The two lines on which each of V's corners lies, the lower one first.
pub const LINES_OF_CORNER: [[usize; 2]; 3] = [[0, 1], [1, 2], [0, 2]];

/// What a triangle's cross is taken of: corner 1 − corner 0 and corner 2 − corner 0.
#[derive(Clone, Copy)]
pub struct Legs {
    pub first: Point,
    pub second: Point,
}

pub fn legs_of(triangle: [Point; 3]) -> Option<Legs> {
    Some(Legs { first: difference(triangle[1], triangle[0])?, second: difference(triangle[2], triangle[0])? })
}

/// The parameters of U's three vertices; `d` as its cross came out, not yet negated.
pub fn parameters_of(u: [Point; 3], v0: Point, legs: Legs, d: f64) -> Option<[Parameters; 3]> {
    Some([
        parameters_at(u[0], v0, legs, d)?,
        parameters_at(u[1], v0, legs, d)?,
        parameters_at(u[2], v0, legs, d)?,
    ])
}

fn parameters_at(vertex: Point, v0: Point, legs: Legs, d: f64) -> Option<Parameters> {
    let r = difference(vertex, v0)?;
    let x = cross(r, legs.second)?;
    let y = cross(legs.first, r)?;
    let (d, x, y) = if d < 0.0 { (-d, -x, -y) } else { (d, x, y) };
    let rest = finite(d - x)?;
    let w = finite(rest - y)?;
    Some([x, y, w])
}

pub fn signs_of(parameters: &[Parameters; 3]) -> [Signs; 3] {
    [signs_at(parameters[0]), signs_at(parameters[1]), signs_at(parameters[2])]
}

/// Zero of either sign is plus. A vertex minus on lines 0 and 1 is plus on line 2, whatever w is.
fn signs_at([x, y, w]: Parameters) -> Signs {
    let x_plus = x >= 0.0;
    let y_plus = y >= 0.0;
    let unseen = !x_plus && !y_plus;
    Signs::of(x_plus, y_plus, unseen || w >= 0.0)
}
