//! Prunes of random ledgers beside the original Rust ledger, which `OWED_LEDGER_REFERENCE` names as a program that answers call scripts.
//! Where it is not at hand the test says so and is content.

mod support;

use owed_ledger::{Ledger, Refusal};
use std::fmt::Write as _;
use std::io::Write as _;
use std::process::{Command, Stdio};
use std::{env, thread};
use support::plain::bytes_of;
use support::random::Random;

const LEDGERS: usize = 1_500;

fn line(name: &str, words: &[u64]) -> String {
    let mut line = name.to_owned();
    for word in words {
        write!(line, " {word}").expect("text has room");
    }
    line + "\n"
}

/// An answer's status and numbers, and the words of its list.
fn answer(line: &str) -> (Vec<u64>, Vec<u64>) {
    let (said, list) = line.split_once(" / ").unwrap_or((line, ""));
    let numbers = |text: &str| {
        let words = text
            .split(' ')
            .filter(|w| !w.is_empty() && !w.starts_with('*'));
        words.map(|w| w.parse().expect("a number")).collect()
    };
    (numbers(said), numbers(list))
}

/// What the program answers to a script.
fn answers(program: &std::ffi::OsStr, script: String) -> Vec<(Vec<u64>, Vec<u64>)> {
    let mut child = Command::new(program)
        .stdin(Stdio::piped())
        .stdout(Stdio::piped())
        .spawn()
        .expect("the program that OWED_LEDGER_REFERENCE names runs");
    let mut input = child.stdin.take().expect("it has an input");
    let writer = thread::spawn(move || input.write_all(script.as_bytes()));
    let output = child.wait_with_output().expect("it ends");
    writer
        .join()
        .expect("the script is written")
        .expect("the script is read");
    let text = String::from_utf8(output.stdout).expect("answers are text");
    text.lines().map(answer).collect()
}

#[test]
fn prunes_beside_the_original() {
    let Some(program) = env::var_os("OWED_LEDGER_REFERENCE") else {
        println!("skipped: the original Rust ledger is not at hand (OWED_LEDGER_REFERENCE)");
        return;
    };
    let mut random = Random::new(5);
    let mut script = String::new();
    let mut cases = Vec::new();
    for _ in 0..LEDGERS {
        let mut ledger = random.ledger();
        let kind = random.below(8);
        if kind == 0 {
            random.spoil(&mut ledger);
        }
        let mut words = ledger.words();
        if kind == 1 {
            random.damage(&mut words);
        }
        let now = random.time();
        script += &line("restore", &words);
        script += &format!("prune {now} lent 144\nsnapshot lent 5959\n");
        cases.push((words, now));
    }
    let answers = answers(&program, script);
    assert_eq!(answers.len(), 3 * LEDGERS);
    let (mut fallen, mut written, mut refused) = (0, 0, 0);
    for ((words, now), said) in cases.iter().zip(answers.chunks(3)) {
        let status = said[0].0[0];
        match Ledger::from_snapshot(&bytes_of(words)) {
            Err(refusal) => {
                assert!(
                    refusal != Refusal::TooShort && refusal.number() == status,
                    "{refusal} beside {status}: {words:?}"
                );
                refused += 1;
            }
            Ok(mut ledger) => {
                assert_eq!(status, 0, "{words:?}");
                let pruned = ledger.prune(*now).expect("a time is accepted");
                let reports: Vec<u64> = pruned
                    .reports
                    .iter()
                    .flat_map(|r| [r.transaction, u64::from(r.covered), r.charge])
                    .collect();
                assert_eq!(
                    said[1].0,
                    [0, pruned.written, pruned.fallen],
                    "{words:?} at {now}"
                );
                assert_eq!(said[1].1, reports, "{words:?} at {now}");
                assert_eq!(said[2].1, ledger.words(), "{words:?} at {now}");
                fallen += pruned.fallen;
                written += pruned.written;
            }
        }
    }
    println!(
        "beside the original: {LEDGERS} ledgers, {refused} refused, {fallen} entries fell, {written} with a report"
    );
    assert!(fallen > 1_000 && written > 300 && refused > 100);
}
