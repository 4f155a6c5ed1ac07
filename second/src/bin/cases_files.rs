//! Makes the input of a test program for footprint files, or the output that it must give, on
//! standard output.

use std::fmt::Write as _;
use std::io::{self, Write as _};
use std::process::ExitCode;

use second::files::worked::{all, changed, EXAMPLE, SHORTEST, THREE};
use second::footprint::{coordinate, judge, part, recording};

/// A file, and the number of the recording that is asked for.
struct Case {
    k: usize,
    file: Vec<u8>,
}

fn main() -> ExitCode {
    let line_of = match std::env::args().nth(1).as_deref() {
        Some("input") => input_line,
        Some("expected") => expected_line,
        _ => {
            eprintln!("usage: cases_files input|expected");
            return ExitCode::from(2);
        }
    };
    let text: String = chosen().iter().map(line_of).collect();
    match io::stdout().write_all(text.as_bytes()) {
        Ok(()) => ExitCode::SUCCESS,
        Err(error) => {
            eprintln!("cannot write: {error}");
            ExitCode::FAILURE
        }
    }
}

/// Recordings of good files, the files worked by hand, then the example cut short at every length
/// and with every byte changed.
fn chosen() -> Vec<Case> {
    let mut cases = Vec::new();
    let second = changed(&EXAMPLE, 71, 1);
    for file in [&SHORTEST[..], &EXAMPLE, &THREE, &second] {
        let past_32_bits = (1u64 << 32) as usize;
        for k in [0, 1, 2, 3, past_32_bits, past_32_bits + 1, usize::MAX] {
            cases.push(Case { k, file: file.to_vec() });
        }
    }
    cases.extend(all().into_iter().map(|worked| Case { k: last_recording(&worked.file), file: worked.file }));
    cases.extend((0..EXAMPLE.len()).map(|length| Case { k: length % 3, file: EXAMPLE[..length].to_vec() }));
    for (place, byte) in EXAMPLE.iter().enumerate() {
        // Not twice the same kind of change in the bytes of one number.
        let other = [byte ^ 1, byte ^ 128, byte.wrapping_add(24), !byte, byte.wrapping_sub(1)][place % 5];
        cases.push(Case { k: place % 2, file: changed(&EXAMPLE, place, other) });
    }
    cases
}

/// 0 if there is none.
fn last_recording(file: &[u8]) -> usize {
    (1..64).rev().find(|k| recording(file, *k).number == 0).unwrap_or(0)
}

fn input_line(case: &Case) -> String {
    let mut line = format!("{:016x} ", case.k);
    append_bytes(&mut line, &case.file);
    line + "\n"
}

fn expected_line(case: &Case) -> String {
    let (verdict, entry) = (judge(&case.file), recording(&case.file, case.k));
    let numbers = [
        verdict.number,
        verdict.place,
        entry.number,
        entry.place,
        entry.id,
        entry.first,
        entry.count,
        entry.set,
        entry.last,
    ];
    let mut line = numbers.map(|number| format!("{number:08x}")).join(" ") + " ";
    let triangles = part(&case.file, case.k);
    append_bytes(&mut line, triangles);
    for index in 0..triangles.len() / 4 {
        let bits = coordinate(triangles, index).to_bits();
        write!(line, " {bits:016x}").expect("a string takes all that is written to it");
    }
    line + "\n"
}

fn append_bytes(line: &mut String, bytes: &[u8]) {
    for byte in bytes {
        write!(line, "{byte:02x}").expect("a string takes all that is written to it");
    }
}
