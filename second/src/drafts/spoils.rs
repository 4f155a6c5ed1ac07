//! Faults to plant in a draft, one refusal's after the other's.

use super::draft::Draft;
use crate::files::shapes;
use crate::footprint::stored::{FIRST_EDITION, HELD_BACK, SECOND_EDITION, TEST, TRAINING};
use crate::random::Random;
use crate::writer::NUMBERS;

pub type Spoil = fn(&mut Draft, &mut Random);

/// By stage, each with the ways to bring its refusal about. The last stage has none: it takes a short
/// room, or thousands of triangles.
pub const SPOILS: [&[Spoil]; 7] = [
    &[lengths, broken_off, lengths_and_broken_off],
    &[no_triangles, set, held_back, set_and_id, last_byte, edition_of_no_test, last_byte_and_id],
    &[id],
    &[sum, wrapping_sum, wrapping_multiple, huge_count],
    &[coordinate, coordinate, coordinate_of_flat],
    &[flat],
    &[too_many],
];

pub fn any_of(stage: usize, draft: &mut Draft, random: &mut Random) {
    let spoil = random.pick(SPOILS[stage]);
    spoil(draft, random);
}

/// One of the four lists shorter or longer than the others, or empty, or the only one that is not; or one
/// shorter and one longer than the two others; or two shorter or longer than these.
pub fn lengths(draft: &mut Draft, random: &mut Random) {
    let (right, some) = (draft.recordings(), 1 + random.below(3));
    let shorter = right.saturating_sub(random.pick(&[1, 1, some]));
    let longer = right + random.pick(&[1, 1, some]);
    let (wrong, others) = random.pick(&[(shorter, right), (longer, right), (0, right), (right, 0)]);
    let mut lengths = match random.below(9) {
        0..=2 => [right.saturating_sub(some), right, right, right + some],
        3 => [wrong, wrong, others, others],
        _ => [wrong, others, others, others],
    };
    random.shuffle(&mut lengths);
    draft.ids.resize(lengths[0], random.bits() as u32);
    draft.counts.resize(lengths[1], 1);
    draft.sets.resize(lengths[2], TEST);
    draft.lasts.resize(lengths[3], random.pick(&[FIRST_EDITION, SECOND_EDITION]));
}

/// Some numbers of one more triangle, or the last triangle without some of its numbers.
pub fn broken_off(draft: &mut Draft, random: &mut Random) {
    let some = 1 + random.below(NUMBERS - 1);
    if random.once_in(2) {
        let triangle = shapes::any(random);
        draft.numbers.extend(&triangle[..some]);
    } else {
        draft.numbers.truncate(draft.numbers.len().saturating_sub(some));
    }
}

fn lengths_and_broken_off(draft: &mut Draft, random: &mut Random) {
    lengths(draft, random);
    broken_off(draft, random);
}

/// Its triangles stay for others to count, or are those of the next or the previous recording.
pub fn no_triangles(draft: &mut Draft, random: &mut Random) {
    if let Some(k) = draft.some_recording(random) {
        let count = std::mem::take(&mut draft.counts[k]);
        let neighbour = if k > 0 { k - 1 } else { 1 };
        if random.once_in(2) && neighbour < draft.counts.len() {
            draft.counts[neighbour] = draft.counts[neighbour].wrapping_add(count);
        }
    }
}

pub fn set(draft: &mut Draft, random: &mut Random) {
    if let Some(k) = draft.some_recording(random) {
        let any = 3 + random.below(253) as u8;
        draft.sets[k] = random.pick(&[3, 3, 4, 128, 129, 130, 255, any, any]);
    }
}

/// The set that is retired, in one entry, in some, in all behind one, or in all.
pub fn held_back(draft: &mut Draft, random: &mut Random) {
    if let Some(k) = draft.some_recording(random) {
        draft.sets[k] = HELD_BACK;
        match random.below(6) {
            0 => draft.sets.iter_mut().filter(|_| random.once_in(2)).for_each(|set| *set = HELD_BACK),
            1 => draft.sets[k..].fill(HELD_BACK),
            2 => draft.sets.fill(HELD_BACK),
            _ => {}
        }
    }
}

/// The same of one entry, and an id already seen of the next or of the one before it.
pub fn held_back_beside_id(draft: &mut Draft, random: &mut Random) {
    if draft.recordings() > 2 {
        let k = 1 + random.below(draft.recordings() - 2);
        let (held_back, twin) = random.pick(&[(k, k + 1), (k + 1, k)]);
        draft.sets[held_back] = HELD_BACK;
        draft.ids[twin] = draft.ids[random.below(k)];
    }
}

/// One that no recording can have, in one entry or in all behind it.
pub fn last_byte(draft: &mut Draft, random: &mut Random) {
    if let Some(k) = draft.some_recording(random) {
        let any = 2 + random.below(254) as u8;
        let last = random.pick(&[2, 2, 3, 128, 129, 255, any, any]);
        if random.once_in(6) {
            draft.lasts[k..].fill(last);
        } else {
            draft.lasts[k] = last;
        }
    }
}

/// One that tests alone can have, in an entry that is training or, at times, of another set that is no test; or
/// in all entries, of which some are none.
pub fn edition_of_no_test(draft: &mut Draft, random: &mut Random) {
    if let Some(k) = draft.some_recording(random) {
        if draft.sets[k] == TEST {
            draft.sets[k] = random.pick(&[TRAINING, TRAINING, TRAINING, HELD_BACK, 3]);
        }
        draft.lasts[k] = SECOND_EDITION;
        if random.once_in(6) {
            draft.lasts.fill(SECOND_EDITION);
        }
    }
}

/// Any of these in one entry, and no triangles or a wrong set in it too.
pub fn last_byte_and_other_14(draft: &mut Draft, random: &mut Random) {
    if let Some(k) = draft.some_recording(random) {
        draft.lasts[k] = random.pick(&[SECOND_EDITION, 2, 255]);
        match random.below(3) {
            0 => (draft.sets[k], draft.counts[k]) = (TRAINING, 0),
            1 => draft.sets[k] = HELD_BACK,
            _ => draft.sets[k] = 3 + random.below(253) as u8,
        }
    }
}

/// One of these, and an id already seen, of one entry; or of the next or of the one before it.
pub fn last_byte_beside_id(draft: &mut Draft, random: &mut Random) {
    if draft.recordings() > 2 {
        let k = 1 + random.below(draft.recordings() - 2);
        let (wrong, twin) =
            random.pick(&[(k, k), (k + 1, k + 1), (k, k + 1), (k, k + 1), (k + 1, k), (k + 1, k)]);
        refused_last(draft, wrong, random);
        draft.ids[twin] = draft.ids[random.below(k)];
    }
}

/// Of one entry.
fn last_byte_and_id(draft: &mut Draft, random: &mut Random) {
    if draft.recordings() > 1 {
        let k = 1 + random.below(draft.recordings() - 1);
        refused_last(draft, k, random);
        draft.ids[k] = draft.ids[random.below(k)];
    }
}

fn refused_last(draft: &mut Draft, k: usize, random: &mut Random) {
    draft.lasts[k] = random.pick(&[SECOND_EDITION, SECOND_EDITION, 2, 128, 255]);
    if draft.lasts[k] == SECOND_EDITION {
        draft.sets[k] = TRAINING;
    }
}

/// The id of the previous entry, the first one or any before it; at times of a test of the second edition.
pub fn id(draft: &mut Draft, random: &mut Random) {
    if draft.recordings() > 1 {
        let last = draft.recordings() - 1;
        let some = 1 + random.below(last);
        let k = random.pick(&[1, last, some]);
        let some = random.below(k);
        draft.ids[k] = draft.ids[random.pick(&[0, k - 1, some])];
        if draft.sets[k] == TEST && random.once_in(2) {
            draft.lasts[k] = SECOND_EDITION;
        }
    }
}

/// Of one entry.
fn set_and_id(draft: &mut Draft, random: &mut Random) {
    if draft.recordings() > 1 {
        let k = 1 + random.below(draft.recordings() - 1);
        draft.sets[k] = random.pick(&[HELD_BACK, HELD_BACK, 3, 255]);
        draft.ids[k] = draft.ids[random.below(k)];
    }
}

/// More than 64 entries lie between the two.
pub fn id_from_far_back(draft: &mut Draft, random: &mut Random) {
    let apart = 65 + random.below(20);
    if draft.recordings() > apart {
        let some = random.below(draft.recordings() - apart);
        let earlier = random.pick(&[0, some]);
        draft.ids[earlier + apart] = draft.ids[earlier];
    }
}

/// One triangle too many or too few, or all the triangles of the last recording missing.
pub fn sum(draft: &mut Draft, random: &mut Random) {
    let k = match draft.some_recording(random) {
        Some(k) => k,
        None => return draft.numbers.extend(shapes::any(random)),
    };
    let (count, numbers) = (draft.counts[k], draft.numbers.len());
    let last = draft.counts.last().map_or(0, |count| *count as usize);
    match random.below(9) {
        0 | 1 => draft.counts[k] = count.wrapping_add(1),
        2 if count > 1 => draft.counts[k] = count - 1,
        3 | 4 => draft.numbers.extend(shapes::any(random)),
        5 => draft.numbers.truncate(numbers.saturating_sub(NUMBERS)),
        6 => draft.counts[k] = count.wrapping_mul(2),
        _ => draft.numbers.truncate(numbers.saturating_sub(NUMBERS * last)),
    }
}

/// 2^32 more, shared out over two neighbours.
pub fn wrapping_sum(draft: &mut Draft, random: &mut Random) {
    if draft.recordings() > 1 {
        let k = random.below(draft.recordings() - 1);
        let [one, other] = [k, k + 1].map(|k| u64::from(draft.counts[k]));
        // From a share with which the other is the largest of all to one with which this one is.
        let (least, most) = (other + 1, (u64::from(u32::MAX) - one).max(other + 1));
        let some = least + random.below((most - least + 1) as usize) as u64;
        let share = random.pick(&[least, most, 1 << 31, some]);
        draft.counts[k] = (one + share) as u32;
        draft.counts[k + 1] = (other + (1 << 32) - share) as u32;
    }
}

/// So much more that six, twelve or 24 times the sum is right to 32 bits; or more than 16 bits hold.
pub fn wrapping_multiple(draft: &mut Draft, random: &mut Random) {
    if let Some(k) = draft.some_recording(random) {
        let more =
            random.pick(&[1 << 31, 1 << 31, 1 << 30, 3 << 30, 1 << 29, 1 << 29, 5 << 29, 1 << 16, 3 << 16]);
        draft.counts[k] = draft.counts[k].wrapping_add(more);
    }
}

/// A count that is far more than there can be triangles, or all of them.
pub fn huge_count(draft: &mut Draft, random: &mut Random) {
    let huge = random.pick(&[u32::MAX, u32::MAX, u32::MAX - 1, 1 << 31, 65_535, 65_536, 65_537, 1 << 24]);
    if let Some(k) = draft.some_recording(random) {
        draft.counts[k] = huge;
        if random.once_in(4) {
            draft.counts.fill(huge);
        }
    }
}

pub fn coordinate(draft: &mut Draft, random: &mut Random) {
    if let Some(k) = draft.some_triangle(random) {
        draft.numbers[NUMBERS * k + random.below(NUMBERS)] = shapes::out_of_range(random);
        if random.once_in(4) {
            draft.numbers[NUMBERS * k + random.below(NUMBERS)] = random.pick(&[i32::MIN, i32::MAX]);
        }
    }
}

/// Out of range and of no area: two equal vertices, or all on a line along an axis.
pub fn coordinate_of_flat(draft: &mut Draft, random: &mut Random) {
    if let Some(k) = draft.some_triangle(random) {
        let out = shapes::out_of_range(random);
        let [x0, y0, x1, y1, x2, _] = draft.triangle(k);
        let flat =
            [[out, y0, x1, y1, out, y0], [x0, y0, out, y0, x2, y0], [x0, out, x1, out, x2, out], [out; 6]];
        draft.set_triangle(k, random.pick(&flat));
    }
}

pub fn flat(draft: &mut Draft, random: &mut Random) {
    if let Some(k) = draft.some_triangle(random) {
        draft.set_triangle(k, shapes::flat(random));
    }
}

/// 65 recordings or more, of a triangle each beyond those that there are.
pub fn too_many(draft: &mut Draft, random: &mut Random) {
    let some = 65 + random.below(30);
    let wanted = random.pick(&[65, 65, 66, some]);
    while draft.recordings() < wanted {
        let id = random.bits() as u32;
        draft.add(id, random.below(2) as u8, shapes::small(random));
    }
}
