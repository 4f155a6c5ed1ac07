//! Files with ids that are easily taken for something else, long recordings, and faults that a program which
//! looks at the recording asked for alone would not find.

use super::numbers::{at_changes, of_any_width};
use crate::files::damage as d;
use crate::files::draft::Draft;
use crate::files::good::{self, distinct, most_triangles};
use crate::files::shapes;
use crate::footprint::stored::u32_at;
use crate::random::Random;

fn with_ids(mut draft: Draft, ids: Vec<u32>) -> Vec<u8> {
    draft.table.iter_mut().zip(ids).for_each(|(line, id)| line.id = id);
    draft.bytes()
}

/// From 0 on or from 1 on, in any order.
pub fn numbers_as_ids(random: &mut Random) -> Vec<u8> {
    let recordings = random.pick(&[2, 3, 3, 4, 8, 30]);
    let draft = good::made(random, recordings, 2, of_any_width);
    let first = random.below(2) as u32;
    let mut ids: Vec<u32> = (first..first + recordings as u32).collect();
    random.shuffle(&mut ids);
    with_ids(draft, ids)
}

/// Ids that are a place, a length, a coordinate or what else stands in the file.
pub fn ids_from_elsewhere(random: &mut Random) -> Vec<u8> {
    let recordings = 1 + random.below(5);
    let draft = good::made(random, recordings, 3, at_changes);
    let file = draft.bytes();
    let words: Vec<u32> = (0..file.len() / 4).map(|k| u32_at(&file, 4 * k)).collect();
    let trailer = [draft.trailer.table, draft.trailer.recordings, draft.trailer.length];
    let ids = distinct(random, recordings, |r| match r.below(8) {
        0 => r.bits() as u32,
        1 | 2 => r.pick(&trailer),
        _ => r.pick(&words),
    });
    with_ids(draft, ids)
}

/// One recording of so many triangles, or of as many as fit, behind some of one.
fn of_one(most: usize, random: &mut Random) -> Vec<u8> {
    let before = random.below(3);
    let count = most.min(most_triangles(before + 1) - before);
    let mut counts = vec![1; before];
    counts.push(count as u16);
    let ids = distinct(random, before + 1, |r| r.bits() as u32);
    let sets: Vec<u8> = ids.iter().map(|_| random.below(3) as u8).collect();
    let triangles = (0..before + count).map(|_| of_any_width(random)).collect();
    Draft::of(&ids, &counts, &sets, triangles).bytes()
}

pub fn long(random: &mut Random) -> Vec<u8> {
    let count = 100 + random.below(400);
    of_one(count, random)
}

pub fn very_long(random: &mut Random) -> Vec<u8> {
    let some = 1_000 + random.below(1_700);
    let most = random.pick(&[some, usize::MAX]);
    of_one(most, random)
}

/// Few recordings, so that most of them have nothing to do with the fault.
fn several(random: &mut Random) -> Draft {
    let recordings = 2 + random.below(4);
    good::made(random, recordings, 3, shapes::any)
}

pub fn fault_at_a_triangle(random: &mut Random) -> Vec<u8> {
    let mut draft = several(random);
    let damage = random.pick(&[d::coordinate as d::Damage, d::flat]);
    damage(&mut draft, random);
    draft.bytes()
}

pub fn fault_at_an_entry(random: &mut Random) -> Vec<u8> {
    let mut draft = several(random);
    let damage = random.pick(&[
        d::no_triangles as d::Damage,
        d::set,
        d::last_byte,
        d::edition_of_no_test,
        d::first,
        d::beyond,
    ]);
    damage(&mut draft, random);
    draft.bytes()
}

pub fn id_twice(random: &mut Random) -> Vec<u8> {
    let mut draft = several(random);
    d::id(&mut draft, random);
    draft.bytes()
}

/// Longer than any file may be, and good otherwise.
pub fn too_long(random: &mut Random) -> Vec<u8> {
    good::too_long(random).bytes()
}
