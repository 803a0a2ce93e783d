//! Lays the Rust's ledger.rs, byte for byte, into the build's own folder.
//!
//! One line is put after it there: the declaration of `inside`, a child module, since only a
//! child sees the private fields that `dump` and the refusal table have to read.

use std::path::PathBuf;
use std::{env, fs};

const LEDGER: &str = "crates/execution/src/ledger.rs";

fn main() {
    let here = PathBuf::from(env::var_os("CARGO_MANIFEST_DIR").expect("set by cargo"));
    let out = PathBuf::from(env::var_os("OUT_DIR").expect("set by cargo"));
    let source = env::var_os("LEDGER_SRC")
        .map_or_else(|| here.join("../../../shared/docs/src"), PathBuf::from)
        .join(LEDGER);
    let text = fs::read_to_string(&source).unwrap_or_else(|error| {
        panic!(
            "cannot read {}: {error}. Set LEDGER_SRC to the folder that holds {LEDGER}.",
            source.display()
        )
    });
    let inside = here.join("src/inside.rs");
    let ledger = out.join("ledger.rs");
    let window = format!("\n#[path = {:?}]\npub(crate) mod inside;\n", inside);
    fs::write(&ledger, text + &window).expect("the build's folder takes files");
    fs::write(
        out.join("module.rs"),
        format!("#[path = {ledger:?}]\npub mod ledger;\n"),
    )
    .expect("the build's folder takes files");
    println!("cargo::rerun-if-env-changed=LEDGER_SRC");
    println!("cargo::rerun-if-changed={}", source.display());
    println!("cargo::rerun-if-changed=build.rs");
}
