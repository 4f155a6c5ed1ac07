//! Runs the library and the second program on the same pairs and stops at the first difference.

use std::process::ExitCode;

use second::case::Case;
use second::classes::{draw, CLASSES};
use second::corners::asked::{ring_length, Asked};
use second::corners::places::places;
use second::corners::{self, Corner, FoundRing};
use second::coverage::Coverage;
use second::decision::{decide, decision_of, is_far, Decision};
use second::lent::{same_bits, Lent};
use second::library::{self, Returned};
use second::random::Random;
use second::tally::{covered, Tally};
use second::triangles::{intersect_traced, Answer, ROOM};

const SEED: u64 = 20_011_946;
const PAIRS: u64 = 1_200_000;
/// From this many pairs on everything counted must have been hit often enough.
const COVERING: u64 = 1_000_000;
const ENOUGH: usize = 500;

fn main() -> ExitCode {
    let (seed, pairs) = match arguments() {
        Ok(found) => found,
        Err(message) => {
            eprintln!("{message}\nusage: compare [--seed S] [--pairs N]");
            return ExitCode::from(2);
        }
    };
    let mut random = Random::new(seed);
    let mut tally = Tally::default();
    let mut corners = corners::tally::Tally::default();
    for number in 0..pairs {
        let class = draw(&mut random);
        let case = CLASSES[class].case(&mut random);
        let mut coverage = Coverage::default();
        let with_null = random.once_in(2);
        let compared = compare(&case, with_null, &mut coverage)
            .and_then(|room| compare_corners(&case, with_null, &room, &coverage, &mut random, &mut corners));
        if let Err(report) = compared {
            println!("difference at pair {number} of seed {seed}, class '{}'", CLASSES[class].name());
            println!("{report}");
            return ExitCode::FAILURE;
        }
        tally.count(class, &coverage);
    }
    tally.rows.extend(corners.rows);
    tally.print();
    if pairs >= COVERING && !covered(&tally.rows, ENOUGH) {
        return ExitCode::FAILURE;
    }
    println!("compared {pairs} pairs: no difference");
    ExitCode::SUCCESS
}

fn arguments() -> Result<(u64, u64), String> {
    let (mut seed, mut pairs) = (SEED, PAIRS);
    let mut words = std::env::args().skip(1);
    while let Some(word) = words.next() {
        let value = words.next().and_then(|text| text.parse().ok());
        match (word.as_str(), value) {
            ("--seed", Some(value)) => seed = value,
            ("--pairs", Some(value)) => pairs = value,
            _ => return Err(format!("cannot read '{word}' and what follows it")),
        }
    }
    Ok((seed, pairs))
}

/// Both programs on copies of the case; the error is a report of everything that differs. Handed back are the
/// values of the ring that the library has written.
fn compare(case: &Case, with_null: bool, coverage: &mut Coverage) -> Result<Vec<f64>, String> {
    let input = Lent::holding(&case.values);
    let mut input_lent = input.clone();
    let mut room_of_library = Lent::room(case.room_length);
    let mut room_of_second = room_of_library.clone();
    let call = if with_null { library::intersect_with_null } else { library::intersect };
    let returned = call(input_lent.lend(), room_of_library.lend());
    let answer = intersect_traced(input.values(), room_of_second.lend(), coverage);
    let call = if with_null { library::decide_with_null } else { library::decide };
    let decided = call(input_lent.lend());
    let decision = decision_on(&input, case.room_length, &answer);
    coverage.decided(input.values(), decision);

    let mut differences = differing_fields(&returned, &answer);
    differences.extend(differing_decisions(&decided, &decision));
    differences.extend(named(&[
        (same_bits(room_of_library.values(), room_of_second.values()), "room"),
        (same_bits(input_lent.values(), input.values()), "input written"),
        (input_lent.same_guards(&input), "guards of the input"),
        (room_of_library.same_guards(&room_of_second), "guards of the room"),
    ]));
    if differences.is_empty() {
        return Ok(room_of_library.values()[..2 * returned.n as usize].to_vec());
    }
    let mut report = format!("differing: {}\n{}", differences.join(", "), case_text(case));
    report += &format!("refusal of the second program: {:?}\n", coverage.refusal);
    report += &format!("library {returned:?}\n{}", values_text(room_of_library.values()));
    report += &format!("second  {answer:?}\n{}", values_text(room_of_second.values()));
    report += &format!("library {decided:?}\nsecond  {decision:?}\n");
    Err(report)
}

/// Every corner of the ring that stands in the room, and places that are none of the ring's.
fn compare_corners(
    case: &Case,
    with_null: bool,
    room: &[f64],
    coverage: &Coverage,
    random: &mut Random,
    tally: &mut corners::tally::Tally,
) -> Result<(), String> {
    let input = Lent::holding(&case.values);
    let mut input_lent = input.clone();
    let call = if with_null { library::corner_at_with_null } else { library::corner_at };
    let ring = FoundRing::of(input.values());
    for place in places(ring_length(&ring, coverage), random) {
        let returned = call(input_lent.lend(), place);
        let asked = Asked::of(case, coverage, &ring, place);
        let mut differences = differing_corners(&returned, &asked.corner);
        differences.extend(named(&[
            (stands_in(room, place, &returned), "the corner's position and the room"),
            (same_bits(input_lent.values(), input.values()), "input written"),
            (input_lent.same_guards(&input), "guards of the input"),
        ]));
        if !differences.is_empty() {
            let asked_for = format!("differing at place {place}: {}\n", differences.join(", "));
            return Err(asked_for
                + &case_text(case)
                + &format!("refusal of the second program: {:?}\n", coverage.refusal)
                + &format!("library {returned:?}\nsecond  {:?}\n", asked.corner));
        }
        tally.count(&asked);
    }
    Ok(())
}

/// Whether the position is the one that the room has, if it has one at that place.
fn stands_in(room: &[f64], place: usize, corner: &Corner) -> bool {
    place >= room.len() / 2 || same_bits(&room[2 * place..2 * place + 2], &[corner.x, corner.y])
}

/// The answer says it, unless the room was too short for one or boxes decide.
fn decision_on(input: &Lent, room_length: usize, answer: &Answer) -> Decision {
    if room_length < ROOM || is_far(input.values()) {
        return decide(input.values());
    }
    decision_of(answer)
}

fn differing_fields(returned: &Returned, answer: &Answer) -> Vec<&'static str> {
    named(&[
        (returned.number == answer.number, "number"),
        (returned.n == answer.n, "n"),
        (returned.area.to_bits() == answer.area.to_bits(), "area"),
        (returned.u_in_v == answer.u_in_v.map(u8::from), "u_in_v"),
        (returned.v_in_u == answer.v_in_u.map(u8::from), "v_in_u"),
        (returned.neighbour == answer.neighbour.map(u8::from), "neighbour"),
    ])
}

fn differing_decisions(decided: &Decision, decision: &Decision) -> Vec<&'static str> {
    named(&[
        (decided.number == decision.number, "the decision's number"),
        (decided.kind == decision.kind, "the decision's kind"),
        (decided.area.to_bits() == decision.area.to_bits(), "the decision's area"),
    ])
}

fn differing_corners(returned: &Corner, corner: &Corner) -> Vec<&'static str> {
    if returned.bits() == corner.bits() {
        return Vec::new();
    }
    named(&[
        (returned.number == corner.number, "the corner's number"),
        (returned.kind == corner.kind, "the corner's kind"),
        (returned.which == corner.which, "the corner's which"),
        (returned.edge == corner.edge, "the corner's edge"),
        (returned.line == corner.line, "the corner's line"),
        (returned.t.to_bits() == corner.t.to_bits(), "the corner's t"),
        (returned.x.to_bits() == corner.x.to_bits(), "the corner's x"),
        (returned.y.to_bits() == corner.y.to_bits(), "the corner's y"),
    ])
}

/// Those that are not the same.
fn named(looked_at: &[(bool, &'static str)]) -> Vec<&'static str> {
    looked_at.iter().filter(|(same, _)| !same).map(|(_, name)| *name).collect()
}

fn case_text(case: &Case) -> String {
    format!("room of {}, input of {}:\n{}", case.room_length, case.values.len(), values_text(&case.values))
}

fn values_text(values: &[f64]) -> String {
    values.iter().map(|value| format!("  {:016x}  {value:e}\n", value.to_bits())).collect()
}
