//! A run in a report.

use super::run::{Run, Step};

/// All steps of a short run up to one of them, or the last before it of a long one.
pub fn text_of(run: &Run, last: usize) -> String {
    const SHORT: usize = 40;
    let from = (last + 1).saturating_sub(SHORT);
    let mut text = format!("buffer filled with {:?}\n", run.fill);
    if from > 0 {
        text += &format!("{from} steps before these:\n");
    }
    for step in &run.steps[from..=last] {
        text += &match step {
            Step::Piece { bytes, null, buffer } => {
                let null = if *null { " (NULL)" } else { "" };
                format!("piece{null} into {buffer:?}, {}\n", shown(bytes))
            }
            Step::End { buffer } => format!("end with {buffer:?}\n"),
            Step::Touch { place, bytes } => format!("touched from {place} on, {}\n", shown(bytes)),
            Step::State(state) => format!("handed in {state:?}\n"),
        };
    }
    text
}

fn shown(bytes: &[u8]) -> String {
    const SHORT: usize = 160;
    let front: String = bytes.iter().take(SHORT).map(|byte| format!("{byte:02x}")).collect();
    format!("{} bytes: {front}{}", bytes.len(), if bytes.len() > SHORT { " .." } else { "" })
}
