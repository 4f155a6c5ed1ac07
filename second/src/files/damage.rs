//! Faults to plant in a draft, one refusal's after the other's.

use super::draft::Draft;
use super::shapes;
use crate::footprint::stored::{HELD_BACK, SECOND_EDITION, TEST, TRAINING, TRIANGLE};
use crate::random::Random;

pub type Damage = fn(&mut Draft, &mut Random);

/// By the number of the refusal, each with the ways to bring it about.
pub const DAMAGES: [(u32, &[Damage]); 7] = [
    (12, &[stored_length]),
    (13, &[recordings, table_place, sum_past_32_bits]),
    (14, &[no_triangles, set, last_byte, edition_of_no_test, first]),
    (16, &[id]),
    (15, &[left_over, beyond, beyond]),
    (17, &[coordinate]),
    (18, &[flat]),
];

pub fn any_of(number: u32, draft: &mut Draft, random: &mut Random) {
    for (_, damages) in DAMAGES.iter().filter(|row| row.0 == number) {
        let damage = random.pick(damages);
        damage(draft, random);
    }
}

/// Another value that looks like this one: some steps away, or off in one bit or byte.
fn near(value: u32, random: &mut Random) -> u32 {
    const STEPS: [u32; 6] = [1, 4, 12, 24, 36, 48];
    match random.below(6) {
        0 => value.wrapping_add(random.pick(&STEPS)),
        1 => value.wrapping_sub(random.pick(&STEPS)),
        2 => value ^ 1 << random.below(32),
        3 => value.wrapping_add(1 << random.pick(&[8, 16, 24, 31])),
        4 => value.swap_bytes(),
        _ => random.pick(&[0, u32::MAX, u32::MAX - 11, u32::MAX - 23, 65_536, 65_537, 1 << 31]),
    }
}

pub fn stored_length(draft: &mut Draft, random: &mut Random) {
    let spoiled = &mut draft.trailer.length;
    *spoiled = match random.below(4) {
        0 => spoiled.wrapping_add((1 + random.below(0xffff) as u32) << 16),
        _ => near(*spoiled, random),
    };
}

pub fn recordings(draft: &mut Draft, random: &mut Random) {
    let spoiled = &mut draft.trailer.recordings;
    *spoiled = match random.below(6) {
        // The same to whoever reads some of its bits only.
        0 | 1 => spoiled.wrapping_add((1 + random.below(3) as u32) << random.pick(&[8, 16, 24, 30])),
        2 => random.pick(&[64, 65, 66, 255, 256, 65_535, 65_536, 65_537, u32::MAX, u32::MAX - 1, 0]),
        3 => 0u32.wrapping_sub(1 + random.below(66) as u32),
        _ => near(*spoiled, random),
    };
}

pub fn table_place(draft: &mut Draft, random: &mut Random) {
    draft.trailer.table = near(draft.trailer.table, random);
}

/// Place, entries and trailer together give the length modulo 2^32, and only so.
pub fn sum_past_32_bits(draft: &mut Draft, random: &mut Random) {
    let fitting = (draft.length() - 12) / 12;
    let recordings = fitting + 1 + if fitting < 64 { random.below(64 - fitting as usize) as u32 } else { 0 };
    draft.trailer.recordings = recordings;
    draft.trailer.table = draft.length().wrapping_sub(12 + 12 * recordings);
}

/// The sum stays right, but the table seems to begin later or earlier than it does.
pub fn table_and_count(draft: &mut Draft, random: &mut Random) {
    let most = draft.trailer.recordings.min(3);
    let later = random.below(1 + most as usize) as u32;
    let earlier = random.below(3) as u32 * u32::from(draft.trailer.table >= 24);
    let trailer = &mut draft.trailer;
    trailer.table = trailer.table.wrapping_add(12 * later).wrapping_sub(12 * earlier);
    trailer.recordings = trailer.recordings.wrapping_sub(later).wrapping_add(earlier);
}

pub fn no_triangles(draft: &mut Draft, random: &mut Random) {
    if let Some(k) = draft.some_entry(random) {
        if random.once_in(2) {
            draft.empty(k);
        } else {
            draft.table[k].count = 0;
        }
    }
}

pub fn set(draft: &mut Draft, random: &mut Random) {
    if let Some(k) = draft.some_entry(random) {
        draft.table[k].set = random.pick(&[3, 3, 3, 4, 127, 128, 129, 254, 255]);
    }
}

pub fn last_byte(draft: &mut Draft, random: &mut Random) {
    if let Some(k) = draft.some_entry(random) {
        draft.table[k].last = random.pick(&[2, 2, 3, 4, 16, 64, 127, 128, 129, 255]);
    }
}

/// A last byte that tests alone may have, of what is training, held back or of no set.
pub fn edition_of_no_test(draft: &mut Draft, random: &mut Random) {
    if let Some(k) = draft.some_entry(random) {
        let line = &mut draft.table[k];
        line.last = SECOND_EDITION;
        if line.set == TEST {
            line.set = random.pick(&[TRAINING, TRAINING, HELD_BACK, HELD_BACK, 3]);
        }
    }
}

pub fn first(draft: &mut Draft, random: &mut Random) {
    if let Some(k) = draft.some_entry(random) {
        let right = draft.table[k].first;
        let off = TRIANGLE as u32 * (1 + random.below(2) as u32);
        let wrong = match random.below(5) {
            0 => right.wrapping_sub(off),
            1 => right.wrapping_add(off),
            2 => right.wrapping_add(1 << random.pick(&[16, 24, 31])),
            3 => draft.table[random.below(draft.table.len())].first,
            _ => near(right, random),
        };
        draft.table[k].first = wrong;
        if random.once_in(3) {
            // Those behind follow the wrong one.
            for line in &mut draft.table[k + 1..] {
                line.first = line.first.wrapping_add(wrong.wrapping_sub(right));
            }
        }
    }
}

pub fn id(draft: &mut Draft, random: &mut Random) {
    if draft.table.len() > 1 {
        let last = draft.table.len() - 1;
        let some = 1 + random.below(last);
        let k = random.pick(&[1, last, some]);
        let some = random.below(k);
        let earlier = random.pick(&[0, k - 1, some]);
        draft.table[k].id = draft.table[earlier].id;
    }
}

/// Triangles, or bytes that are none, before the table that belong to no recording.
pub fn left_over(draft: &mut Draft, random: &mut Random) {
    match random.below(4) {
        0 => {
            let bytes = random.pick(&[1, 4, 8, 12, 16, 23, 25, 36]);
            let noise: Vec<u8> = (0..bytes).map(|_| random.bits() as u8).collect();
            draft.insert(&noise);
        }
        1 => {
            let last = draft.table.last_mut();
            last.into_iter().filter(|line| line.count > 1).for_each(|line| line.count -= 1);
        }
        _ => {
            for _ in 0..random.pick(&[1, 1, 2, 5]) {
                let triangle = shapes::any(random);
                draft.insert(&triangle.map(i32::to_le_bytes).concat());
            }
        }
    }
}

/// A count so large that the triangles run past the table, or past the file, or past 16 bits.
pub fn beyond(draft: &mut Draft, random: &mut Random) {
    let last = draft.table.len().saturating_sub(1);
    let k = if random.once_in(3) { draft.some_entry(random) } else { Some(last) };
    let more = match random.below(4) {
        0 => 1 + random.below(3) as u16,
        1 => 8192 * (1 + random.below(7) as u16),
        2 => 2730,
        _ => u16::MAX,
    };
    if let Some(line) = k.and_then(|k| draft.table.get_mut(k)) {
        line.count = line.count.saturating_add(more);
        draft.set_firsts();
    }
    if random.once_in(8) {
        draft.table.iter_mut().for_each(|line| line.count = u16::MAX);
        draft.set_firsts();
    }
}

pub fn coordinate(draft: &mut Draft, random: &mut Random) {
    if let Some(k) = draft.some_triangle(random) {
        draft.triangles[k][random.below(6)] = shapes::out_of_range(random);
        if random.once_in(6) {
            draft.triangles[k][random.below(6)] = shapes::out_of_range(random);
        }
        if random.once_in(6) {
            // Flat as well: two equal vertices.
            let [x0, y0, x1, y1, _, _] = draft.triangles[k];
            draft.triangles[k] = [x0, y0, x1, y1, x0, y0];
        }
    }
}

pub fn flat(draft: &mut Draft, random: &mut Random) {
    if let Some(k) = draft.some_triangle(random) {
        draft.triangles[k] = shapes::flat(random);
    }
}
