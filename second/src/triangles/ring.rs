//! Crossings with the signs of their moment, the nine flags, and the ring.

use super::lines::{Signs, LINES_OF_CORNER};
use super::list::List;
use super::orders::Order;

/// A crossing of an edge of U with one of V's lines.
#[derive(Clone, Copy, Debug)]
pub struct Crossing {
    pub edge: usize,
    pub line: usize,
    /// The signs of the stretch that ends here; on the other lines they hold on both sides.
    before: Signs,
}

impl Crossing {
    fn lies_on_edge_of_v(&self) -> bool {
        (0..3).all(|line| line == self.line || self.before.plus(line))
    }

    fn leaves(&self) -> bool {
        self.before.plus(self.line)
    }
}

/// Edge by edge, each in its own direction. A line has none or two of them, so six are the most.
pub type Crossings = List<Crossing, 6>;

/// Where a corner of the ring comes from.
#[derive(Clone, Copy, Debug, PartialEq, Eq)]
pub enum Place {
    Vertex(usize),
    Corner(usize),
    Crossing { edge: usize, line: usize },
}

/// At most six: that many sides have two triangles together.
pub type Ring = List<Place, 6>;

pub fn crossings_along(signs: &[Signs; 3], orders: &[Order; 3]) -> Crossings {
    let mut crossings = Crossings::new(Crossing { edge: 0, line: 0, before: Signs::ALL_MINUS });
    for edge in 0..3 {
        let mut stretch = signs[edge];
        for &line in orders[edge].as_slice() {
            crossings.push(Crossing { edge, line, before: stretch });
            stretch = stretch.across(line);
        }
    }
    crossings
}

pub fn vertices_in_v(signs: &[Signs; 3]) -> [bool; 3] {
    [signs[0] == Signs::ALL_PLUS, signs[1] == Signs::ALL_PLUS, signs[2] == Signs::ALL_PLUS]
}

pub fn corners_in_u(crossings: &Crossings) -> [bool; 3] {
    let mut of_line = [List::<Signs, 2>::new(Signs::ALL_MINUS); 3];
    for crossing in crossings.as_slice() {
        of_line[crossing.line].push(crossing.before);
    }
    let differ_on = |line: usize, other: usize| match of_line[line].as_slice() {
        [one, two] => one.plus(other) != two.plus(other),
        _ => false,
    };
    let mut in_u = [false; 3];
    for corner in 0..3 {
        let [a, b] = LINES_OF_CORNER[corner];
        in_u[corner] = differ_on(a, b);
        debug_assert_eq!(in_u[corner], differ_on(b, a));
    }
    in_u
}

pub fn neighbours_of(crossings: &Crossings, v_in_u: [bool; 3]) -> [bool; 3] {
    let mut neighbour = [false; 3];
    for crossing in crossings.as_slice() {
        if crossing.lies_on_edge_of_v() {
            neighbour[crossing.line] = true;
        }
    }
    for corner in 0..3 {
        if v_in_u[corner] {
            let [a, b] = LINES_OF_CORNER[corner];
            neighbour[a] = true;
            neighbour[b] = true;
        }
    }
    neighbour
}

/// What the walk takes, in turn.
#[derive(Clone, Copy)]
pub enum Met {
    Vertex(usize),
    Entering(Crossing),
    Leaving(Crossing),
}

pub type MetList = List<Met, 6>;

pub fn met_on_the_walk(u_in_v: [bool; 3], crossings: &Crossings) -> MetList {
    let mut met = MetList::new(Met::Vertex(0));
    for (edge, starts_in_v) in u_in_v.into_iter().enumerate() {
        if starts_in_v {
            met.push(Met::Vertex(edge));
        }
        for crossing in crossings.as_slice() {
            if crossing.edge == edge && crossing.lies_on_edge_of_v() {
                met.push(if crossing.leaves() { Met::Leaving(*crossing) } else { Met::Entering(*crossing) });
            }
        }
    }
    met
}

pub fn ring_of(met: &MetList, v_in_u: [bool; 3]) -> Ring {
    let mut ring = Ring::new(Place::Vertex(0));
    for (k, item) in met.as_slice().iter().enumerate() {
        match *item {
            Met::Vertex(vertex) => ring.push(Place::Vertex(vertex)),
            Met::Entering(crossing) => ring.push(place_of(crossing)),
            Met::Leaving(crossing) => {
                ring.push(place_of(crossing));
                if line_entered_next(met.as_slice(), k).map_or(false, |line| line != crossing.line) {
                    insert_corners(&mut ring, crossing.line, v_in_u);
                }
            }
        }
    }
    if met.is_empty() && v_in_u.contains(&true) {
        for corner in 0..3 {
            ring.push(Place::Corner(corner));
        }
    }
    ring
}

/// Looked for past the end of the walk from its beginning on.
fn line_entered_next(met: &[Met], leaving: usize) -> Option<usize> {
    let after = met[leaving + 1..].iter().chain(&met[..leaving]);
    for item in after {
        if let Met::Entering(crossing) = item {
            return Some(crossing.line);
        }
    }
    None
}

/// One corner or two go here; of two, the one that shares the line just left leads.
fn insert_corners(ring: &mut Ring, left_by: usize, v_in_u: [bool; 3]) {
    for on_that_line in [true, false] {
        for corner in 0..3 {
            if v_in_u[corner] && LINES_OF_CORNER[corner].contains(&left_by) == on_that_line {
                ring.push(Place::Corner(corner));
            }
        }
    }
}

fn place_of(crossing: Crossing) -> Place {
    Place::Crossing { edge: crossing.edge, line: crossing.line }
}
