//! Reads a call script on standard input and writes the answers of the Rust ledger. With `--no-copy`, for timing, bundles keep no copy
//! of the ledger, and one that is refused stops the program.

use std::io::{self, Read, Write};
use std::process::ExitCode;

fn main() -> ExitCode {
    let words: Vec<String> = std::env::args().skip(1).collect();
    match words.iter().map(String::as_str).collect::<Vec<_>>()[..] {
        [] => {}
        ["--no-copy"] => reference::keep_no_copy(),
        _ => {
            eprintln!("usage: reference [--no-copy] <SCRIPT");
            return ExitCode::from(2);
        }
    }
    let mut script = Vec::new();
    let mut answers = Vec::new();
    let done = io::stdin().lock().read_to_end(&mut script).and_then(|_| {
        reference::run(&script, &mut answers);
        io::stdout().lock().write_all(&answers)
    });
    match done {
        Ok(()) => ExitCode::SUCCESS,
        Err(error) => {
            eprintln!("reference: {error}");
            ExitCode::FAILURE
        }
    }
}
