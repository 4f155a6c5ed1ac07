//! Runs with states that no call has given back, and with buffers that somebody else has written to.

use super::cuts;
use super::made::{good_file, run_of, short_file};
use super::run::{end, piece, state, touch, Buffer, Run, Step};
use crate::footprint::MOST_BYTES;
use crate::random::Random;

/// Every number but 0 means that the file has ended.
pub fn ended(random: &mut Random) -> Run {
    let mut run = run_of(Vec::new(), random);
    if random.once_in(2) {
        run.steps.extend(cuts::in_any_way(&short_file(random), random));
    }
    for _ in 0..1 + random.below(3) {
        let some = random.bits() as u32;
        let ended =
            random.pick(&[1, 2, 2, 3, 128, 256, 256, 65_536, 1 << 31, 1 << 31, u32::MAX, u32::MAX, some]);
        let arrived = if random.once_in(2) { random.below(200) as u32 } else { any_arrived(random) };
        run.steps.push(state(arrived, ended.max(1)));
        cuts::with_calls_after(&mut run.steps, random);
    }
    run
}

fn any_arrived(random: &mut Random) -> u32 {
    let (buffer, few) = (MOST_BYTES as u32, random.below(300) as u32);
    let times = 2 + random.below(65_000) as u32;
    let any = random.bits() as u32;
    let far = random.pick(&[(1 << 31) + few, any, buffer.wrapping_mul(times).wrapping_add(few)]);
    match random.below(9) {
        0 => buffer,
        1 => buffer + 1,
        2 => buffer + 2,
        3 => buffer + 2 + few,
        4 => u32::MAX,
        5 => u32::MAX - few,
        6 => 2 * buffer + few,
        7 => 1 << 31,
        _ => far,
    }
}

/// More has arrived than any call can say, or as much as only a full buffer can have.
pub fn arrived(random: &mut Random) -> Run {
    let mut run = run_of(Vec::new(), random);
    if random.once_in(3) {
        run.steps.extend(cuts::in_any_way(&short_file(random), random));
    }
    for _ in 0..1 + random.below(4) {
        let arrived = any_arrived(random);
        run.steps.push(state(arrived, 0));
        if random.once_in(6) {
            run.steps.push(Step::End { buffer: cuts::wrong_buffer(random) });
        }
        let call = match random.below(6) {
            0 | 1 => end(),
            2 => cuts::empty_piece(random),
            // To 32 bits they would go somewhere at the front of the buffer.
            3 => {
                let to_the_front = arrived.wrapping_neg() as usize;
                let behind = random.pick(&[0, 1, 12, 84]);
                let length = if to_the_front < 2_000 { to_the_front + behind } else { 90 };
                piece(&cuts::noise(length, random))
            }
            4 => cuts::some_piece_into(Buffer::Right, random),
            _ => cuts::some_piece_into(cuts::wrong_buffer(random), random),
        };
        run.steps.push(call);
        if random.once_in(3) {
            run.steps.push(end());
        }
    }
    run
}

/// As much as nothing has been called for: the buffer has it all the same, or something else.
pub fn arrived_within(random: &mut Random) -> Run {
    let file = if random.once_in(2) { good_file(random) } else { short_file(random) };
    let mut run = run_of(Vec::new(), random);
    let part = random.below(file.len() + 1);
    let there = random.pick(&[file.len(), part]);
    if !random.once_in(5) {
        run.steps.push(touch(0, &file[..there]));
    }
    run.steps.push(state(there as u32, 0));
    if there < file.len() {
        run.steps.extend(cuts::in_any_way(&file[there..], random));
    }
    run.steps.push(end());
    if random.once_in(3) {
        cuts::with_calls_after(&mut run.steps, random);
    }
    run
}

/// A byte of what has come is made another, or is put right, or the buffer is written to behind it.
pub fn touched(random: &mut Random) -> Run {
    let mut file = if random.once_in(2) { good_file(random) } else { short_file(random) };
    file.truncate(60_000);
    let right = file.clone();
    let spoiled = if file.is_empty() { 0 } else { file.len() - 1 - random.below(file.len().min(40)) };
    let first_wrong = random.once_in(2);
    if first_wrong && !file.is_empty() {
        file[spoiled] ^= 1 << random.below(8);
    }
    let mut run = run_of(cuts::in_any_way(&file, random), random);
    match random.below(3) {
        0 => {
            let (few, behind) = (1 + random.below(40), file.len() + random.below(40));
            let place = random.pick(&[file.len(), behind, MOST_BYTES - few]);
            run.steps.push(touch(place, &cuts::noise(few, random)));
        }
        _ if first_wrong && !file.is_empty() => run.steps.push(touch(spoiled, &right[spoiled..=spoiled])),
        _ if !file.is_empty() => {
            let byte = file[spoiled] ^ 1 << random.below(8);
            run.steps.push(touch(spoiled, &[byte]));
        }
        _ => (),
    }
    if random.once_in(4) {
        let place = random.below(MOST_BYTES - 100);
        run.steps.insert(random.below(run.steps.len()), touch(place, &cuts::noise(100, random)));
    }
    run.steps.push(end());
    run
}
