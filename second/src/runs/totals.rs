//! Runs of more bytes than the buffer has, or of nearly as many.

use super::cuts;
use super::made::{arriving, of_class, run_of, Way};
use super::run::{end, piece, Run, Step};
use crate::files::worked::{EXAMPLE, THREE};
use crate::footprint::MOST_BYTES;
use crate::random::Random;

/// From one byte less than the buffer has to one more, with a trailer that fits or none.
pub fn around_the_buffer(random: &mut Random) -> Run {
    let length = MOST_BYTES - 1 + random.below(3);
    let mut file = vec![random.bits() as u8; length];
    if random.once_in(3) {
        let trailer = [length as u32 - 12, 0, length as u32].map(u32::to_le_bytes).concat();
        file[length - 12..].copy_from_slice(&trailer);
    }
    let way = random.pick(&[cuts::in_two as Way, cuts::in_some, at_the_buffers_end, whole]);
    let mut run = arriving(&file, way, random);
    decorate(&mut run, random);
    run
}

fn in_buffers(file: &[u8], _: &mut Random) -> Vec<Step> {
    cuts::even(file, MOST_BYTES)
}

fn whole(file: &[u8], _: &mut Random) -> Vec<Step> {
    vec![piece(file)]
}

/// The last pieces are short.
fn at_the_buffers_end(file: &[u8], random: &mut Random) -> Vec<Step> {
    let near = MOST_BYTES.min(file.len());
    let cuts = (0..1 + random.below(4)).map(|_| near - random.below(10)).collect();
    cuts::at(file, cuts)
}

/// The piece that does not fit as a whole is long or short, and others follow.
pub fn past_the_buffer(random: &mut Random) -> Run {
    let some = random.below(MOST_BYTES);
    let few = 1 + random.below(9);
    let before = MOST_BYTES - random.pick(&[0, 0, 1, 2, 8, few, few, 100, some]);
    let more = random.pick(&[1, 1, 2, 7, 8, 9, 12, 84, 100, some + 1]);
    let file = cuts::noise(before, random);
    let mut run = run_of(if before == 0 { Vec::new() } else { cuts::in_any_way(&file, random) }, random);
    run.steps.push(piece(&cuts::noise(MOST_BYTES - before + more, random)));
    for _ in 0..random.below(4) {
        let length = random.pick(&[0, 0, 1, 12, 84, 700]);
        run.steps.push(piece(&cuts::noise(length, random)));
    }
    if random.once_in(2) {
        cuts::with_empty_pieces(&mut run.steps, random);
    }
    run.steps.push(end());
    decorate(&mut run, random);
    run
}

/// Up to ten buffers, and by one byte or more above a multiple of its length.
pub fn far_above(random: &mut Random) -> Run {
    let (times, few) = (1 + random.below(9), random.below(100));
    let length = times * MOST_BYTES + random.pick(&[0, 1, 12, 84, few]);
    let file = vec![random.bits() as u8; length];
    let way = random.pick(&[cuts::in_two as Way, cuts::in_some, in_buffers]);
    let mut run = arriving(&file, way, random);
    decorate(&mut run, random);
    run
}

/// A good file to whoever counts to 16 bits, at the front of the buffer or at the end of what came.
pub fn good_to_16_bits(random: &mut Random) -> Run {
    let good = random.pick(&[&EXAMPLE[..], &THREE]);
    let rest = vec![random.bits() as u8; MOST_BYTES * (1 + random.below(2))];
    let file = if random.once_in(3) { [&rest, good].concat() } else { [good, &rest].concat() };
    let way: Way = |file, random| {
        let cuts = [84, 144, MOST_BYTES, file.len() - 84].map(|cut| cut.min(file.len()));
        let mut cuts = cuts.to_vec();
        cuts.retain(|_| random.once_in(2));
        cuts::at(file, cuts)
    };
    let mut run = arriving(&file, way, random);
    decorate(&mut run, random);
    run
}

/// A full buffer, or more than that, and then calls that are refused for other buffers.
pub fn wrong_buffers_at_last(random: &mut Random) -> Run {
    let file = vec![random.bits() as u8; MOST_BYTES + random.below(2)];
    let mut run = arriving(&file, whole, random);
    let mut calls = vec![cuts::empty_piece(random)];
    cuts::with_wrong_buffers(&mut calls, random);
    cuts::with_wrong_buffers(&mut calls, random);
    run.steps.splice(1..1, calls);
    run
}

/// No good file is so long.
pub fn as_long_as_allowed(random: &mut Random) -> Run {
    let file = of_class("as long as allowed", random);
    let way = random.pick(&[cuts::in_two as Way, cuts::in_some, at_the_buffers_end, whole]);
    arriving(&file, way, random)
}

fn decorate(run: &mut Run, random: &mut Random) {
    if random.once_in(6) {
        cuts::with_wrong_buffers(&mut run.steps, random);
    }
    if random.once_in(4) {
        cuts::with_calls_after(&mut run.steps, random);
    }
}
