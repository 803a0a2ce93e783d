//! The stack that the port's program needs: the least limit under which it answers as it does without one.

use std::fs::{self, File};
use std::io;
use std::path::Path;
use std::process::{Command, Output};

/// Limits in KiB: one that is enough, and how close the search comes.
const ENOUGH: u64 = 8192;
const CLOSE: u64 = 4;
/// The stack's start differs a little from run to run, so a limit must do several times.
const TRIES: u32 = 3;

/// The least limit in KiB; none if the program needs more than it is searched for.
pub fn least(program: &Path, script: &str, scratch: &Path) -> io::Result<Option<u64>> {
    let path = scratch.join("calls");
    fs::write(&path, script)?;
    let free = Command::new(program).stdin(File::open(&path)?).output()?;
    if !answers(program, &path, ENOUGH, &free)? {
        return Ok(None);
    }
    let (mut short, mut enough) = (0, ENOUGH);
    while enough - short > CLOSE {
        let middle = (short + enough) / 2;
        if answers(program, &path, middle, &free)? {
            enough = middle;
        } else {
            short = middle;
        }
    }
    Ok(Some(enough))
}

fn answers(program: &Path, script: &Path, limit: u64, free: &Output) -> io::Result<bool> {
    for _ in 0..TRIES {
        // The environment lies on the stack too, so there is none.
        let limited = Command::new("sh")
            .args(["-c", "ulimit -s \"$1\" && exec \"$2\"", "sh"])
            .arg(limit.to_string())
            .arg(program)
            .env_clear()
            .stdin(File::open(script)?)
            .output()?;
        if limited.status != free.status || limited.stdout != free.stdout {
            return Ok(false);
        }
    }
    Ok(true)
}
