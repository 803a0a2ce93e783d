//! The two programs of `docs/HOSTS.md`: built, run, and shown there word for word.

use std::path::{Path, PathBuf};
use std::process::{Command, Output};
use std::{env, fs};

fn here() -> &'static Path {
    Path::new(env!("CARGO_MANIFEST_DIR"))
}

fn text(name: &str) -> String {
    fs::read_to_string(here().join(name)).unwrap_or_else(|e| panic!("{name}: {e}"))
}

fn wrote(output: Output) -> String {
    assert!(
        output.status.success(),
        "{}",
        String::from_utf8_lossy(&output.stderr)
    );
    String::from_utf8(output.stdout).expect("the output is text")
}

/// A folder of cargo's own.
fn scratch(name: &str) -> PathBuf {
    Path::new(env!("CARGO_TARGET_TMPDIR")).join(name)
}

#[test]
fn the_c_program() {
    let program = scratch("ledger_c");
    let built = Command::new(env::var_os("CC").unwrap_or_else(|| "cc".into()))
        .args([
            "-std=c99",
            "-Wall",
            "-Wextra",
            "-Wpedantic",
            "-Werror",
            "-O2",
            "-I",
        ])
        .arg(here().join("include"))
        .arg(here().join("examples/ledger.c"))
        .arg(env!("OWED_LEDGER_ARCHIVE"))
        .arg("-o")
        .arg(&program)
        .output()
        .expect("there is a C compiler, cc or the one that CC names");
    wrote(built);
    let ran = Command::new(&program).output().expect("the program runs");
    assert_eq!(wrote(ran), text("examples/ledger.c.stdout"));
}

#[test]
fn the_rust_program() {
    // Beside the folder of the tests is that of the examples, which cargo builds with them.
    let test = env::current_exe().expect("a test knows its program");
    let program = test
        .parent()
        .and_then(Path::parent)
        .expect("it lies in deps/")
        .join("examples/ledger");
    let ran = Command::new(&program)
        .output()
        .expect("cargo built the example");
    assert_eq!(wrote(ran), text("examples/ledger.rs.stdout"));
}

#[test]
fn shown_on_the_page() {
    let page = text("../docs/HOSTS.md");
    for (name, language) in [("examples/ledger.c", "c"), ("examples/ledger.rs", "rust")] {
        let shown = format!("```{language}\n{}```\n", text(name));
        assert!(
            page.contains(&shown),
            "{name} does not stand on docs/HOSTS.md word for word"
        );
        let output = format!("```text\n{}```\n", text(&format!("{name}.stdout")));
        assert!(
            page.contains(&output),
            "what {name} writes does not stand on docs/HOSTS.md"
        );
    }
}

/// The words of a list in a program, without the remarks behind them.
fn words_in(program: &str, from: &str, to: &str) -> Vec<u64> {
    let program = text(program);
    let (_, list) = program.split_once(from).expect("the program has the words");
    let (list, _) = list.split_once(to).expect("they end");
    let plain = list
        .lines()
        .map(|line| line.split('/').next().unwrap_or(""));
    let words = plain.flat_map(|line| line.split(',')).map(str::trim);
    let word = |w: &str| {
        if w.ends_with("<< 62") {
            1 << 62
        } else {
            w.parse().expect("a word")
        }
    };
    words.filter(|w| !w.is_empty()).map(word).collect()
}

#[test]
fn the_example_on_the_page() {
    let page = text("../docs/HOSTS.md");
    let (_, rows) = page
        .split_once("word  value  bytes")
        .expect("the example's table is there");
    let (rows, _) = rows.split_once("```").expect("it ends");
    let mut snapshot = Vec::new();
    for (i, row) in rows.lines().skip(1).enumerate() {
        let fields: Vec<_> = row.split_whitespace().collect();
        let bytes = fields[2..10]
            .iter()
            .map(|b| u8::from_str_radix(b, 16).expect("a byte"));
        let value = match fields[1] {
            "2^62" => 1 << 62,
            number => number.parse::<u64>().expect("a word"),
        };
        assert_eq!(fields[0].parse(), Ok(i));
        assert!(bytes.clone().eq(value.to_le_bytes()), "{row}");
        snapshot.extend(bytes);
    }
    // The page's words are those of both programs.
    assert_eq!(snapshot.len(), 240);
    let mut out = [0; 240];
    assert_eq!(owed_ledger::slices::read(&snapshot, &mut out), Ok(()));
    let words: Vec<u64> = snapshot
        .as_chunks()
        .0
        .iter()
        .map(|w| u64::from_le_bytes(*w))
        .collect();
    assert_eq!(words_in("examples/ledger.c", "stored[30] = {", "};"), words);
    assert_eq!(
        words_in("examples/ledger.rs", "STORED: [u64; 30] = [", "];"),
        words
    );
}
