//! The ids that a file is asked for.

use super::coverage::Coverage;
use crate::random::Random;

/// Those of all its recordings, and others that are nearly such or stand in the file elsewhere; of a longer
/// file fewer of these.
pub fn ids_for(coverage: &Coverage, random: &mut Random) -> Vec<u32> {
    const LONG: usize = 4_000;
    let there: Vec<u32> = coverage.lines.iter().map(|line| line.id).collect();
    let mut others = vec![0, 1, u32::MAX, random.bits() as u32, coverage.file.len() as u32];
    others.extend(coverage.behind_the_table());
    others.extend(coverage.before_the_table());
    others.extend(some_words(coverage, random));
    others.push(there.len() as u32);
    others.push(random.below(there.len().max(1)) as u32);
    if !there.is_empty() {
        let (first, last, any) = (there[0], there[there.len() - 1], random.pick(&there));
        others.extend(near(random.pick(&[first, last, any, any]), random));
    }
    let many = if coverage.file.len() > LONG { 6 } else { 2 };
    others.retain(|_| random.once_in(many));
    let mut ids = [there, others].concat();
    ids.sort_unstable();
    ids.dedup();
    ids
}

/// The same to whoever looks at some of its bits, or counts wrong by one.
fn near(id: u32, random: &mut Random) -> Vec<u32> {
    let bit = 1u32 << random.below(32);
    let byte = (1 + random.below(255) as u32) << (8 * random.below(4));
    vec![
        id.wrapping_add(1),
        id.wrapping_sub(1),
        id ^ bit,
        id ^ byte,
        id.swap_bytes(),
        id & 0xff,
        id & 0xffff,
        id ^ 1 << 31,
        id.wrapping_neg(),
    ]
}

/// What four bytes of the file are, at two places of any kind and at two that are multiples of four.
fn some_words(coverage: &Coverage, random: &mut Random) -> Vec<u32> {
    let length = coverage.file.len();
    let any = [0; 4].map(|_| random.below(length.max(1)));
    let places = [any[0], any[1], any[2] / 4 * 4, any[3] / 4 * 4];
    places.iter().filter_map(|place| coverage.word_at(*place)).collect()
}
