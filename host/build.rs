//! Links the static library: from the folder that `OWED_LEDGER_LIB` names, else from where `rt lib` leaves it in this repository.

use std::path::{Path, PathBuf};
use std::{env, fs};

fn main() {
    println!("cargo:rerun-if-env-changed=OWED_LEDGER_LIB");
    let folder = env::var_os("OWED_LEDGER_LIB").map_or_else(
        || Path::new(env!("CARGO_MANIFEST_DIR")).join("../crates/owed_ledger/out"),
        PathBuf::from,
    );
    let library = folder.join("libowed_ledger.a");
    println!("cargo:rerun-if-changed={}", library.display());
    let Ok(folder) = fs::canonicalize(&folder) else {
        panic!("There is no {}; `host/test` builds it.", library.display());
    };
    println!("cargo:rustc-link-search=native={}", folder.display());
    println!("cargo:rustc-link-lib=static=owed_ledger");
    println!(
        "cargo:rustc-env=OWED_LEDGER_ARCHIVE={}",
        folder.join("libowed_ledger.a").display()
    );
}
