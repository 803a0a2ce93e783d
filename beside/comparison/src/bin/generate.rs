//! Writes the scripts of a seed, for looking at one: generate SEED INDEX [NAMES].

use std::io::Write;
use std::process::ExitCode;

use comparison::scripts::{Names, script};

fn main() -> ExitCode {
    let words: Vec<String> = std::env::args().skip(1).collect();
    let number = |place: usize| words.get(place).and_then(|word| word.parse::<u64>().ok());
    let names = words
        .get(2)
        .map_or(Ok(Names::all()), |list| Names::listed(list));
    let (Some(seed), Some(index), Ok(names)) = (number(0), number(1), names) else {
        eprintln!("usage: generate SEED INDEX [NAME,NAME,..]");
        return ExitCode::from(2);
    };
    match std::io::stdout().write_all(&script(seed, index, &names).text) {
        Ok(()) => ExitCode::SUCCESS,
        Err(_) => ExitCode::FAILURE,
    }
}
