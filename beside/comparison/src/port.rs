//! Runs the port's program on a script and hands back what it wrote.

use std::io::{Read, Write};
use std::path::PathBuf;
use std::process::{Child, Command, Stdio};
use std::sync::mpsc;
use std::thread;
use std::time::Duration;

pub struct Port {
    pub program: PathBuf,
    pub arguments: &'static [&'static str],
    /// How long one run may take before it counts as one that never ends.
    pub patience: Duration,
}

impl Port {
    /// What the program wrote; a run that failed or was cut off says so in a last line.
    pub fn run(&self, script: &[u8]) -> Result<Vec<u8>, String> {
        let mut child = Command::new(&self.program)
            .args(self.arguments)
            .stdin(Stdio::piped())
            .stdout(Stdio::piped())
            .stderr(Stdio::null())
            .spawn()
            .map_err(|error| format!("cannot run {}: {error}", self.program.display()))?;
        let mut answers = self.talk(&mut child, script.to_vec());
        let status = child.wait().map_err(|error| error.to_string())?;
        if !status.success() {
            answers.extend_from_slice(format!("[the program ended with {status}]\n").as_bytes());
        }
        Ok(answers)
    }

    /// Write and read at once, for either pipe may fill; stop the child when time is up.
    fn talk(&self, child: &mut Child, script: Vec<u8>) -> Vec<u8> {
        let mut input = child.stdin.take().expect("piped");
        let mut output = child.stdout.take().expect("piped");
        // A program that stops at a malformed line need not read the rest.
        thread::spawn(move || input.write_all(&script).ok());
        let (sender, receiver) = mpsc::channel();
        thread::spawn(move || {
            let mut answers = Vec::new();
            output.read_to_end(&mut answers).ok();
            sender.send(answers).ok();
        });
        match receiver.recv_timeout(self.patience) {
            Ok(answers) => answers,
            Err(_) => {
                child.kill().ok();
                receiver.recv().unwrap_or_default()
            }
        }
    }
}
