//! What has to hold before times mean anything: both programs give the same answers, and what is timed restores the ledger.

use std::path::PathBuf;
use std::time::Duration;

use comparison::port::Port;

use crate::cases::Case;

const PATIENCE: Duration = Duration::from_secs(60);

/// The Rust, given these arguments, and the port.
fn sides(programs: &[PathBuf; 2], arguments: &'static [&'static str]) -> [Port; 2] {
    [(0, arguments), (1, &[])].map(|(side, arguments)| Port {
        program: programs[side].clone(),
        arguments,
        patience: PATIENCE,
    })
}

/// Each block of each case, made twice with a dump after each. The Rust is given these arguments.
pub fn check<'a>(
    programs: &[PathBuf; 2],
    arguments: &'static [&'static str],
    cases: impl Iterator<Item = &'a Case>,
) -> Result<(), String> {
    let [rust, port] = sides(programs, arguments);
    for case in cases {
        for block in case.blocks() {
            let script = format!("{}{block}dump\n{block}dump\n", case.setup);
            let answers = rust.run(script.as_bytes())?;
            if port.run(script.as_bytes())? != answers {
                return Err(format!("the answers differ on: {}", case.name));
            }
            if !restored(&case.setup, &block, &answers) {
                return Err(format!("the ledger is not restored by: {}", case.name));
            }
        }
    }
    Ok(())
}

/// The place of the number of counts of rebuilt entries in a dump's answer; the pairs of shard and count stand behind it.
const COUNTS: usize = 5;

/// Whether the word at that place is a shard's count of rebuilt entries.
fn is_count(words: &[&str], place: usize) -> bool {
    let many: usize = words[COUNTS].parse().unwrap_or(0);
    let behind = place.saturating_sub(COUNTS);
    place > COUNTS && behind <= 2 * many && behind.is_multiple_of(2)
}

/// Whether the dumps after the first and after the second block are there and equal, but for the counts, which only rise.
fn restored(setup: &str, block: &str, answers: &[u8]) -> bool {
    let text = String::from_utf8_lossy(answers);
    let answers: Vec<&str> = text.lines().collect();
    let first = setup.lines().count() + block.lines().count();
    let second = first + block.lines().count() + 1;
    let held = |place: usize| {
        let mut words: Vec<&str> = answers[place].split(' ').collect();
        for place in COUNTS + 1..words.len() {
            words[place] = if is_count(&words, place) {
                ""
            } else {
                words[place]
            };
        }
        words
    };
    answers.len() == second + 1 && held(first) == held(second)
}

/// What is timed of either case leads either program to the same ledger, from none: the dumps after it are equal.
pub fn same_ledger(programs: &[PathBuf; 2], one: &Case, other: &Case) -> Result<(), String> {
    for program in sides(programs, &[]) {
        let held = |case: &Case| -> Result<Option<String>, String> {
            let answers = program.run(format!("{}dump\n", case.blocks()[0]).as_bytes())?;
            let text = String::from_utf8_lossy(&answers);
            Ok(text.lines().last().map(String::from))
        };
        if held(one)? != held(other)? {
            return Err(format!("another ledger is reached by: {}", one.name));
        }
    }
    Ok(())
}

/// All blocks of these cases, and a dump: a script that must have every call of the format.
pub fn all_calls<'a>(cases: impl Iterator<Item = &'a Case>) -> Result<String, String> {
    let mut script = String::new();
    for case in cases {
        script += &case.setup;
        script += &case.blocks().concat();
    }
    script += "dump\n";
    let made = |name: &str| {
        script
            .lines()
            .any(|line| line.split(' ').next() == Some(name))
    };
    match reference::CALLS.iter().find(|call| !made(call.name)) {
        Some(call) => Err(format!("no script here makes the call {}", call.name)),
        None => Ok(script),
    }
}
