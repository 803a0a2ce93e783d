//! The command's words.

use std::path::{Path, PathBuf};
use std::{fs, io};

use comparison::scripts::Names;

const USAGE: &str =
    "usage: compare [--port PATH | --alone] [--seed S] [--scripts N] [--calls NAME,NAME,..]";

pub struct Options {
    pub port: Option<PathBuf>,
    pub seed: u64,
    pub scripts: u64,
    pub names: Names,
}

impl Options {
    pub fn read(mut words: impl Iterator<Item = String>) -> Result<Self, String> {
        let mut options = Self {
            port: None,
            seed: 1,
            scripts: 20_000,
            names: Names::all(),
        };
        let mut alone = false;
        while let Some(word) = words.next() {
            if word == "--alone" {
                alone = true;
                continue;
            }
            let value = words.next().ok_or(USAGE)?;
            options.set(&word, &value)?;
        }
        if alone == options.port.is_some() {
            return Err(format!("{USAGE}\neither --port or --alone is needed here"));
        }
        Ok(options)
    }

    fn set(&mut self, word: &str, value: &str) -> Result<(), String> {
        let number = || {
            value
                .parse::<u64>()
                .map_err(|_| format!("{word}: {value} is no number"))
        };
        match word {
            // A bare name means a file here and not a command.
            "--port" => self.port = Some(Path::new(".").join(value)),
            "--seed" => self.seed = number()?,
            "--scripts" => self.scripts = number()?,
            "--calls" => {
                self.names = Names::listed(value).map_err(|name| format!("no call: {name}"))?;
            }
            _ => return Err(USAGE.to_string()),
        }
        Ok(())
    }

    pub fn instances(&self) -> io::Result<Vec<PathBuf>> {
        let folder = Path::new(env!("CARGO_MANIFEST_DIR")).join("../instances");
        let mut paths = Vec::new();
        for file in fs::read_dir(folder)? {
            let path = file?.path();
            if path.extension().is_some_and(|end| end == "calls") {
                paths.push(path);
            }
        }
        paths.sort();
        Ok(paths)
    }
}
