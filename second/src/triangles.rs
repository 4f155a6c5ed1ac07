//! U and V go in; the ring, the flags and the area of what they share come out, or a refusal.
//! Everything follows document 01, operation by operation.

pub mod lines;
pub mod list;
pub mod numbers;
pub mod orders;
pub mod positions;
pub mod ring;
pub mod trace;

#[cfg(test)]
mod combinations;
#[cfg(test)]
mod worked;

use lines::{legs_of, parameters_of, signs_of, Legs};
use numbers::{cross, Point};
use orders::order_along;
use positions::{area_of, place_corners, Positions};
use ring::{corners_in_u, crossings_along, met_on_the_walk, neighbours_of, ring_of, vertices_in_v};
use trace::Trace;

/// Laid out as the C interface's `meskelow_answer`.
#[repr(C)]
#[derive(Clone, Copy, Debug, Default)]
pub struct Answer {
    pub number: u32,
    pub n: u32,
    pub area: f64,
    pub u_in_v: [bool; 3],
    pub v_in_u: [bool; 3],
    pub neighbour: [bool; 3],
}

/// What can refuse a pair, in the order in which it is tested.
#[derive(Clone, Copy, Debug, PartialEq, Eq)]
pub enum Refusal {
    Length,
    Coordinate,
    OverflowAtD,
    FlatV,
    OverflowAtE,
    FlatU,
    OverflowAtParameter,
    OverflowAtPairTest,
    OverflowAtPosition,
    OverflowAtArea,
}

impl Refusal {
    pub fn number(self) -> u32 {
        match self {
            Refusal::Length => 1,
            Refusal::Coordinate => 2,
            Refusal::FlatV => 3,
            Refusal::FlatU => 5,
            Refusal::OverflowAtD
            | Refusal::OverflowAtE
            | Refusal::OverflowAtParameter
            | Refusal::OverflowAtPairTest
            | Refusal::OverflowAtPosition
            | Refusal::OverflowAtArea => 4,
        }
    }
}

/// Values on input; values the room must have, which is also the most that a ring of six takes.
pub const VALUES: usize = 12;
pub const ROOM: usize = 12;

/// Never inlined, so that a caller pays for a call here as for one of a library.
#[inline(never)]
pub fn intersect(values: &[f64], room: &mut [f64]) -> Answer {
    intersect_traced(values, room, &mut ())
}

/// The same with `trace` told what happens on the way.
pub fn intersect_traced<T: Trace>(values: &[f64], room: &mut [f64], trace: &mut T) -> Answer {
    match answer_of(values, room, trace) {
        Ok(answer) => answer,
        Err(refusal) => {
            trace.refused(refusal);
            Answer { number: refusal.number(), ..Answer::default() }
        }
    }
}

fn answer_of<T: Trace>(values: &[f64], room: &mut [f64], trace: &mut T) -> Result<Answer, Refusal> {
    if values.len() != VALUES || room.len() < ROOM {
        return Err(Refusal::Length);
    }
    if values.iter().any(|value| !value.is_finite()) {
        return Err(Refusal::Coordinate);
    }
    let u = triangle_from(&values[..6]);
    let v = triangle_from(&values[6..]);

    let (v_legs, d) = cross_of(v, Refusal::OverflowAtD, Refusal::FlatV)?;
    cross_of(u, Refusal::OverflowAtE, Refusal::FlatU)?;
    let parameters = parameters_of(u, v[0], v_legs, d).ok_or(Refusal::OverflowAtParameter)?;
    let signs = signs_of(&parameters);
    trace.parameters(&parameters, &signs);
    let orders = [
        order_along(0, &parameters, &signs, trace)?,
        order_along(1, &parameters, &signs, trace)?,
        order_along(2, &parameters, &signs, trace)?,
    ];
    trace.orders(&orders);

    let crossings = crossings_along(&signs, &orders);
    let u_in_v = vertices_in_v(&signs);
    let v_in_u = corners_in_u(&crossings);
    let met = met_on_the_walk(u_in_v, &crossings);
    let ring = ring_of(&met, v_in_u);
    trace.ring(&u, &ring);

    // The room is touched only after the last thing that can refuse.
    let mut positions = Positions::new(Point { x: 0.0, y: 0.0 });
    place_corners(&mut positions, &ring, &u, &v, &parameters, &signs, trace)
        .ok_or(Refusal::OverflowAtPosition)?;
    let area = area_of(positions.as_slice()).ok_or(Refusal::OverflowAtArea)?;
    for (position, pair) in positions.as_slice().iter().zip(room.chunks_exact_mut(2)) {
        pair[0] = position.x;
        pair[1] = position.y;
    }
    let neighbour = neighbours_of(&crossings, v_in_u);
    Ok(Answer { number: 0, n: positions.len() as u32, area, u_in_v, v_in_u, neighbour })
}

/// A triangle's legs and their cross, which is d or e; refused where it overflows or is zero.
fn cross_of(triangle: [Point; 3], overflow: Refusal, flat: Refusal) -> Result<(Legs, f64), Refusal> {
    let legs = legs_of(triangle).ok_or(overflow)?;
    let value = cross(legs.first, legs.second).ok_or(overflow)?;
    if value == 0.0 {
        return Err(flat);
    }
    Ok((legs, value))
}

fn triangle_from(values: &[f64]) -> [Point; 3] {
    let point = |k: usize| Point { x: values[2 * k], y: values[2 * k + 1] };
    [point(0), point(1), point(2)]
}
