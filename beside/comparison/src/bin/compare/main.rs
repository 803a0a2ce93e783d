//! Makes random call scripts, runs them on the Rust and on the port's program, and shows the
//! first difference, shortened. Status 0: equal; 1: different; 2: the command was not understood.

mod options;

use std::process::ExitCode;
use std::time::Duration;
use std::{fs, io};

use comparison::coverage::Coverage;
use comparison::left_out::Verdict;
use comparison::port::Port;
use comparison::scripts::{Script, script};
use comparison::shorten::{first_difference, first_word, shorten, simplify, thin};
use options::Options;

/// Scripts to one run of the port's program.
const BATCH: usize = 400;
const PATIENCE: Duration = Duration::from_secs(120);

fn main() -> ExitCode {
    let options = match Options::read(std::env::args().skip(1)) {
        Ok(options) => options,
        Err(error) => {
            eprintln!("{error}");
            return ExitCode::from(2);
        }
    };
    if options
        .port
        .as_ref()
        .is_some_and(|program| !program.is_file())
    {
        eprintln!("the port's program is not there");
        return ExitCode::from(2);
    }
    let port = options.port.clone().map(|program| Port {
        program,
        arguments: &[],
        patience: PATIENCE,
    });
    let compared = match &port {
        Some(port) => instances(&options, port).and_then(|()| random(&options, Some(port))),
        None => random(&options, None),
    };
    match compared {
        Ok(()) => ExitCode::SUCCESS,
        Err(difference) => {
            println!("{difference}");
            ExitCode::FAILURE
        }
    }
}

/// The hand-worked instances, those whose calls are asked for, on the port's program.
fn instances(options: &Options, port: &Port) -> Result<(), String> {
    let mut run = 0;
    let said = |error: io::Error| error.to_string();
    for path in options.instances().map_err(said)? {
        let text = fs::read(&path).map_err(said)?;
        if !options.names.cover(&text) {
            continue;
        }
        run += 1;
        let expected = fs::read(path.with_extension("answers")).map_err(said)?;
        let answers = port.run(&text)?;
        if expected != answers {
            let name = path.file_name().unwrap_or_default().to_string_lossy();
            let title = format!("instances/{name}");
            let hand = ("worked out by hand", &expected[..]);
            return Err(show(&title, &text, hand, ("the port", &answers)));
        }
    }
    println!("{run} instances: the port answers as worked out by hand");
    Ok(())
}

/// The random scripts: on the Rust always, on the port's program where there is one.
fn random(options: &Options, port: Option<&Port>) -> Result<(), String> {
    let mut coverage = Coverage::default();
    let mut batch = Batch::default();
    let mut result = Ok(());
    for index in 0..options.scripts {
        let Script { text, apart } = script(options.seed, index, &options.names);
        let mut answers = Vec::new();
        coverage.run(&text, &mut answers);
        if coverage.left_out().passing.shown > 0 {
            result = Err(refutation(options, index, &text));
            break;
        }
        let Some(port) = port else { continue };
        result = if apart {
            Batch {
                scripts: vec![(index, text)],
                answers,
            }
            .compare(options, port)
        } else {
            batch.add(index, text, answers);
            batch.compare_when(batch.scripts.len() == BATCH, options, port)
        };
        if result.is_err() {
            break;
        }
    }
    if let (Ok(()), Some(port)) = (&result, port) {
        result = batch.compare_when(true, options, port);
    }
    println!("seed {}: {coverage}", options.seed);
    if port.is_some() && result.is_ok() {
        println!("the port's answers equal the Rust's");
    }
    result
}

/// A script in which prunes that were left out show, though every call stays apart: the Rust itself is not as stated.
fn refutation(options: &Options, index: u64, script: &[u8]) -> String {
    let refutes = |text: &[u8]| Verdict::on(text).is_some_and(|verdict| verdict.refutes());
    let short = thin(&shorten(script, refutes), refutes);
    let short = simplify(&short, refutes);
    format!(
        "REFUTED: seed {}, script {index}, shortened: prunes left out show, though every call stays apart\n{}",
        options.seed,
        String::from_utf8_lossy(&short)
    )
}

/// Scripts that each start with `new`, joined to one, so that one process runs them all.
#[derive(Default)]
struct Batch {
    scripts: Vec<(u64, Vec<u8>)>,
    answers: Vec<u8>,
}

impl Batch {
    fn add(&mut self, index: u64, text: Vec<u8>, answers: Vec<u8>) {
        self.scripts.push((index, text));
        self.answers.extend(answers);
    }

    fn compare_when(&mut self, due: bool, options: &Options, port: &Port) -> Result<(), String> {
        if due {
            std::mem::take(self).compare(options, port)
        } else {
            Ok(())
        }
    }

    fn text(&self) -> Vec<u8> {
        self.scripts
            .iter()
            .flat_map(|(_, text)| text.iter().copied())
            .collect()
    }

    fn compare(self, options: &Options, port: &Port) -> Result<(), String> {
        if port.run(&self.text())? == self.answers {
            return Ok(());
        }
        // One script by itself, if one will do; else all of them joined.
        for (index, text) in &self.scripts {
            if differs(port, text) {
                return Err(explain(options, port, &format!("script {index}"), text));
            }
        }
        Err(explain(
            options,
            port,
            "several scripts in one run",
            &self.text(),
        ))
    }
}

fn rust(script: &[u8]) -> Vec<u8> {
    let mut answers = Vec::new();
    reference::run(script, &mut answers);
    answers
}

fn differs(port: &Port, script: &[u8]) -> bool {
    port.run(script)
        .is_ok_and(|answers| answers != rust(script))
}

fn explain(options: &Options, port: &Port, what: &str, script: &[u8]) -> String {
    let short = shorten(script, |text| differs(port, text));
    let short = thin(&short, |text| differs(port, text));
    let short = simplify(&short, |text| differs(port, text));
    let expected = rust(&short);
    let answers = port.run(&short).unwrap_or_else(|error| error.into_bytes());
    let title = format!("seed {}, {what}, shortened", options.seed);
    show(
        &title,
        &short,
        ("the Rust", &expected),
        ("the port", &answers),
    )
}

/// The script and the first answer in which the two sides, each with its name, differ.
fn show(title: &str, script: &[u8], one: (&str, &[u8]), other: (&str, &[u8])) -> String {
    let line = first_difference(one.1, other.1).unwrap_or(0);
    let answer = |text: &[u8]| {
        let text = String::from_utf8_lossy(text);
        text.lines().nth(line).unwrap_or("nothing").to_string()
    };
    let answers = (answer(one.1), answer(other.1));
    [
        format!("DIFFERENT: {title}"),
        format!("--- script\n{}", String::from_utf8_lossy(script)),
        format!("--- answer {}: {}\n{}", line + 1, one.0, answers.0),
        format!("--- answer {}: {}\n{}", line + 1, other.0, answers.1),
        format!("--- {}", first_word(&answers.0, &answers.1)),
    ]
    .join("\n")
}
