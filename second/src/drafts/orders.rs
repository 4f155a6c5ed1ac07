//! Drafts worked by hand that deserve two refusals: the number shows which is tested first.

use super::draft::Draft;
use super::worked::{refused, three, Worked, OVER, UNDER, V};

pub fn all() -> Vec<Worked> {
    two_at_once().into_iter().chain(within()).collect()
}

/// What plants a fault.
type Plant = fn(&mut Worked);

/// A fault of every stage, in the order of the tests, that can be planted beside any other in `three`.
const FAULTS: [(u32, Plant); 9] = [
    (15, |w| w.draft.sets.push(0)),
    (14, |w| w.draft.sets[1] = 2),
    (14, |w| w.draft.lasts[1] = 1),
    (16, |w| w.draft.ids[2] = 0),
    (15, |w| w.draft.counts[2] += 1),
    (17, |w| w.draft.numbers[9] = OVER),
    (18, |w| w.draft.set_triangle(3, [5; 6])),
    (13, |w| {
        (10..72).for_each(|id| w.draft.add(id, 1, V));
        w.room = w.draft.length();
    }),
    (19, |w| w.room = 11),
];

/// Every refusal alone, and every two at once.
fn two_at_once() -> Vec<Worked> {
    let planted = |number: u32, faults: &[Plant]| {
        let mut worked = refused(number, three());
        faults.iter().for_each(|fault| fault(&mut worked));
        worked
    };
    let mut all = Vec::new();
    for (k, &(number, first)) in FAULTS.iter().enumerate() {
        all.push(planted(number, &[first]));
        all.extend(FAULTS[k + 1..].iter().map(|(_, second)| planted(number, &[first, *second])));
    }
    all
}

/// 14 and 16, then 17 and 18: of one entry or triangle, and of two, both ways.
fn within() -> Vec<Worked> {
    let of = |number: u32, edit: fn(&mut Draft)| {
        let mut draft = three();
        edit(&mut draft);
        refused(number, draft)
    };
    vec![
        of(14, |d| (d.ids[1], d.sets[1]) = (0, 2)),
        of(14, |d| (d.ids[2], d.sets[2]) = (0, 2)),
        of(14, |d| (d.ids[1], d.sets[0]) = (0, 2)),
        of(14, |d| (d.ids[2], d.sets[1]) = (0, 2)),
        of(16, |d| (d.ids[1], d.sets[2]) = (0, 2)),
        of(14, |d| (d.ids[1], d.sets[1]) = (0, 3)),
        of(14, |d| (d.ids[1], d.counts[1]) = (0, 0)),
        of(14, |d| (d.ids[2], d.counts[1]) = (0, 0)),
        of(14, |d| (d.ids[2], d.sets[0]) = (0, 255)),
        of(16, |d| (d.ids[1], d.sets[2]) = (0, 3)),
        of(16, |d| (d.ids[1], d.counts[2]) = (0, 0)),
        // The last byte, and the id of its own entry, of the one behind it and of the one before.
        of(14, |d| (d.ids[1], d.lasts[1]) = (0, 1)),
        of(14, |d| (d.ids[1], d.lasts[1]) = (0, 2)),
        of(14, |d| (d.ids[2], d.lasts[2]) = (0, 2)),
        of(14, |d| (d.ids[2], d.lasts[2]) = (0, 255)),
        of(14, |d| (d.ids[1], d.lasts[0]) = (0, 1)),
        of(14, |d| (d.ids[2], d.lasts[1]) = (0, 1)),
        of(14, |d| (d.ids[2], d.lasts[1]) = (0, 128)),
        of(16, |d| (d.ids[1], d.lasts[2]) = (0, 2)),
        of(16, |d| (d.ids[1], d.sets[2], d.lasts[2]) = (0, 0, 1)),
        // A last byte that a test may have is not looked at again.
        of(16, |d| (d.ids[2], d.lasts[2]) = (0, 1)),
        of(16, |d| (d.ids[1], d.lasts[2]) = (0, 1)),
        of(15, |d| (d.counts[2], d.lasts[2]) = (2, 1)),
        // A last byte too many, and what else there is.
        of(15, |d| (d.lasts, d.sets[1]) = (vec![0; 4], 2)),
        of(15, |d| (d.lasts, d.counts[2]) = (vec![0, 0, 2, 0], 0)),
        of(15, |d| (d.lasts, d.ids[1]) = (vec![0; 2], 0)),
        of(15, |d| (d.lasts, d.numbers[9]) = (vec![0; 2], OVER)),
        of(17, |d| (d.numbers[0], d.lasts[2]) = (OVER, 1)),
        of(18, |d| (d.numbers[4], d.lasts[2]) = (0, 1)),
        of(17, |d| d.set_triangle(1, [0, 0, 4, 0, OVER, 0])),
        of(17, |d| d.set_triangle(1, [UNDER; 6])),
        of(18, |d| (d.numbers[4], d.numbers[6]) = (0, OVER)),
        of(18, |d| (d.numbers[4], d.numbers[23]) = (0, i32::MIN)),
        of(17, |d| (d.numbers[0], d.numbers[11]) = (OVER, 1_000_000)),
        of(17, |d| (d.numbers[5], d.numbers[14]) = (UNDER, 0)),
    ]
}
