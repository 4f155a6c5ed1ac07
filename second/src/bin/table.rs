//! Writes the table for the nine signs of U's three vertices, as source text, on standard output.

use std::io::{self, Write as _};
use std::process::ExitCode;

use second::table::source_text;

fn main() -> ExitCode {
    if std::env::args().len() > 1 {
        eprintln!("usage: table");
        return ExitCode::from(2);
    }
    match io::stdout().write_all(source_text().as_bytes()) {
        Ok(()) => ExitCode::SUCCESS,
        Err(error) => {
            eprintln!("cannot write: {error}");
            ExitCode::FAILURE
        }
    }
}
