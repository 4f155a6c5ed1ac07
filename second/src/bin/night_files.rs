//! Writes good files of all classes whose texts are compared to standard output, each as its length, four bytes
//! with the lowest first, and then its bytes. Other software may read the texts that a program makes of them.

use std::io::{self, Write as _};
use std::process::ExitCode;

use second::files::draw_from;
use second::random::Random;
use second::texts::numbers::file_of_known;
use second::texts::{CLASSES, GOOD};

const SEED: u64 = 20_011_946;
const FILES: usize = 200;

fn main() -> ExitCode {
    let (seed, files) = match arguments() {
        Ok(found) => found,
        Err(message) => {
            eprintln!("{message}\nusage: night_files [--seed S] [--files N]");
            return ExitCode::from(2);
        }
    };
    match write_all(seed, files) {
        Ok(()) => ExitCode::SUCCESS,
        Err(error) => {
            eprintln!("cannot write: {error}");
            ExitCode::FAILURE
        }
    }
}

fn arguments() -> Result<(u64, usize), String> {
    let (mut seed, mut files) = (SEED, FILES);
    let mut words = std::env::args().skip(1);
    while let Some(word) = words.next() {
        let value = words.next().and_then(|text| text.parse().ok());
        match (word.as_str(), value) {
            ("--seed", Some(value)) => seed = value,
            ("--files", Some(value)) => files = value as usize,
            _ => return Err(format!("cannot read '{word}' and what follows it")),
        }
    }
    Ok((seed, files))
}

/// The first has every known number in every place, whatever the seed.
fn write_all(seed: u64, files: usize) -> io::Result<()> {
    let mut random = Random::new(seed);
    let mut output = io::stdout().lock();
    for number in 0..files {
        let file = match number {
            0 => file_of_known(),
            _ => CLASSES[draw_from(&CLASSES[..GOOD], &mut random)].file(&mut random),
        };
        output.write_all(&(file.len() as u32).to_le_bytes())?;
        output.write_all(&file)?;
    }
    output.flush()
}
