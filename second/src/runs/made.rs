//! Runs of files that come in pieces.

use super::cuts;
use super::run::{end, piece, state, Fill, Run, Step};
use super::worked;
use crate::files::{self, good, Class};
use crate::footprint::{judge, MOST_BYTES};
use crate::lists;
use crate::random::Random;

pub type Way = fn(&[u8], &mut Random) -> Vec<Step>;

pub fn run_of(steps: Vec<Step>, random: &mut Random) -> Run {
    Run { fill: Fill::any(random), steps }
}

/// The pieces and the end, and what is told of it with a run's other makers.
pub fn arriving(file: &[u8], way: Way, random: &mut Random) -> Run {
    let mut steps = way(file, random);
    steps.push(end());
    run_of(steps, random)
}

pub fn worked_by_hand(random: &mut Random) -> Run {
    let mut all = worked::all();
    let k = random.below(all.len());
    let mut run = all.swap_remove(k).run;
    run.fill = Fill::any(random);
    run
}

/// Of any kind, but not so long that it takes its time.
pub fn short_file(random: &mut Random) -> Vec<u8> {
    const SHORT: usize = 700;
    loop {
        let file = files::CLASSES[files::draw(random)].file(random);
        if file.len() <= SHORT {
            return file;
        }
    }
}

/// A longer one is drawn again as a rule.
pub fn any_file(random: &mut Random) -> Vec<u8> {
    const LONG: usize = 20_000;
    loop {
        let file = files::CLASSES[files::draw(random)].file(random);
        if file.len() < LONG || random.once_in(8) {
            return file;
        }
    }
}

pub fn good_file(random: &mut Random) -> Vec<u8> {
    const LONG: usize = 8_192;
    let classes: [&[Class]; 2] = [&files::CLASSES, &lists::CLASSES];
    let classes = classes[random.below(2)];
    loop {
        let file = classes[random.below(classes.len())].file(random);
        if file.len() < LONG && judge(&file).number == 0 {
            return file;
        }
    }
}

/// The beginning of a good file, or of nothing.
pub fn fewer_than_twelve(random: &mut Random) -> Run {
    let file = good_file(random);
    let length = random.below(12);
    let way = random.pick(&[cuts::in_any_way as Way, cuts::in_any_way, byte_by_byte]);
    let mut run = arriving(&file[..length], way, random);
    if random.once_in(3) {
        cuts::with_empty_pieces(&mut run.steps, random);
    }
    run
}

pub fn byte_by_byte(file: &[u8], _: &mut Random) -> Vec<Step> {
    cuts::even(file, 1)
}

/// Good, or with a fault.
pub fn largest(random: &mut Random) -> Run {
    let file = match random.below(3) {
        0 | 1 => good::largest(random).bytes(),
        _ => of_class("a fault in one of the largest", random),
    };
    let way = random.pick(&[cuts::in_two as Way, cuts::in_some, in_even_pieces]);
    let mut run = arriving(&file, way, random);
    if random.once_in(3) {
        cuts::with_calls_after(&mut run.steps, random);
    }
    run
}

fn in_even_pieces(file: &[u8], random: &mut Random) -> Vec<Step> {
    cuts::even(file, random.pick(&[512, 1_000, 4_096, 8_191, 32_768, 65_520]))
}

/// Of a class that readers are compared with.
pub fn of_class(name: &str, random: &mut Random) -> Vec<u8> {
    let class = files::CLASSES.iter().find(|class| class.name() == name).expect("there is such a class");
    class.file(random)
}

pub fn with_empty_pieces(random: &mut Random) -> Run {
    let file = short_file(random);
    let mut run = run_of(cuts::in_any_way(&file, random), random);
    cuts::with_empty_pieces(&mut run.steps, random);
    run.steps.push(end());
    run
}

pub fn with_wrong_buffers(random: &mut Random) -> Run {
    let file = short_file(random);
    let mut run = arriving(&file, cuts::in_any_way, random);
    cuts::with_wrong_buffers(&mut run.steps, random);
    if random.once_in(2) {
        cuts::with_empty_pieces(&mut run.steps, random);
    }
    run
}

pub fn with_calls_after(random: &mut Random) -> Run {
    let file = if random.once_in(3) { good_file(random) } else { short_file(random) };
    let mut run = arriving(&file, cuts::in_any_way, random);
    cuts::with_calls_after(&mut run.steps, random);
    run
}

/// Before anything else has come, or with nothing but empty pieces before.
pub fn end_at_once(random: &mut Random) -> Run {
    let mut run = run_of(vec![end()], random);
    if random.once_in(2) {
        run.steps.insert(0, cuts::empty_piece(random));
    }
    cuts::with_calls_after(&mut run.steps, random);
    run
}

/// Whatever comes to a caller's mind.
pub fn in_any_order(random: &mut Random) -> Run {
    let file = short_file(random);
    let mut run = run_of(cuts::in_any_way(&file, random), random);
    run.steps.truncate(20);
    cuts::with_empty_pieces(&mut run.steps, random);
    cuts::with_wrong_buffers(&mut run.steps, random);
    run.steps.push(end());
    run.steps.push(end());
    if random.once_in(4) {
        run.steps.push(state(0, 0));
    }
    random.shuffle(&mut run.steps);
    run
}

/// A second file, and at times a third, in the buffer of the first.
pub fn one_after_the_other(random: &mut Random) -> Run {
    let mut steps = Vec::new();
    for _ in 0..2 + random.below(2) {
        let file = if random.once_in(2) { good_file(random) } else { short_file(random) };
        if !steps.is_empty() {
            steps.push(state(0, 0));
        }
        if random.once_in(12) {
            steps.push(piece(&vec![random.bits() as u8; MOST_BYTES + random.below(3)]));
        } else {
            steps.extend(cuts::in_any_way(&file, random));
        }
        // A file that breaks off leaves its bytes, too.
        if !random.once_in(5) {
            steps.push(end());
        }
    }
    run_of(steps, random)
}

/// Neither place nor length is a multiple of anything.
pub fn uneven_pieces(random: &mut Random) -> Run {
    let file = cuts::noise(400 + random.below(600), random);
    let way: Way = |file, random| {
        let (mut steps, mut from) = (Vec::new(), 0);
        while from < file.len() {
            let length = (1 + random.below(70)).min(file.len() - from);
            steps.push(piece(&file[from..from + length]));
            from += length;
        }
        steps
    };
    arriving(&file, way, random)
}
