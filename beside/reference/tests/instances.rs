//! Runs the Rust on every script of ../instances and holds it to the answers beside it,
//! which were worked out from the paper's rules by hand.

use std::fs;
use std::path::{Path, PathBuf};

fn scripts() -> Vec<PathBuf> {
    let folder = Path::new(env!("CARGO_MANIFEST_DIR")).join("../instances");
    let mut paths: Vec<PathBuf> = fs::read_dir(folder)
        .expect("the instances lie beside this package")
        .map(|file| file.expect("readable").path())
        .filter(|path| path.extension().is_some_and(|end| end == "calls"))
        .collect();
    paths.sort();
    paths
}

#[test]
fn every_letter_of_the_paper_has_a_script() {
    let names: Vec<String> = scripts()
        .iter()
        .map(|path| {
            path.file_stem()
                .expect("named")
                .to_string_lossy()
                .into_owned()
        })
        .collect();
    for letter in 'a'..='m' {
        assert!(
            names.contains(&letter.to_string()),
            "no script for instance {letter}"
        );
    }
}

#[test]
fn the_rust_answers_every_instance_as_worked_out() {
    for path in scripts() {
        let script = fs::read(&path).expect("readable");
        let expected = fs::read_to_string(path.with_extension("answers")).expect("answers");
        let mut answers = Vec::new();
        reference::run(&script, &mut answers);
        let answers = String::from_utf8(answers).expect("only digits and signs are written");
        assert_eq!(answers, expected, "{}", path.display());
    }
}
