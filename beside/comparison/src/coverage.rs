//! Counts what the scripts reached: every refusal of every call, how entries went, and every limit.

use std::fmt;

use reference::{Book, CALLS, Reply, Runner};

use crate::bundles::Bundles;
use crate::choices::Choices;
use crate::counts::Counts;
use crate::left_out::{LeftOut, Verdict};
use crate::limits::Limits;
use crate::prunes::{Judged, Prunes, Rule};
use crate::series::{Listener, Pairs};
use crate::snapshots::Snapshots;
use crate::trees::Trees;

const REFUSALS: usize = 17;
const REMAINDER: u64 = 3;

#[derive(Default)]
pub struct Coverage {
    scripts: u64,
    malformed: u64,
    calls: Calls,
    bundles: Bundles,
    snapshots: Snapshots,
    counts: Counts,
    trees: Trees,
    prunes: Prunes,
    pairs: Pairs,
    left_out: LeftOut,
    limits: Limits,
    accepted: u64,
    aborted: u64,
    remainders: u64,
}

/// For each call: how often each status, and how often a first answer other than 0.
struct Calls([([u64; REFUSALS], u64); CALLS.len()]);

impl Default for Calls {
    fn default() -> Self {
        Self([([0; REFUSALS], 0); CALLS.len()])
    }
}

impl Coverage {
    /// Run a script on the Rust, append its answers and count what it reached.
    pub fn run(&mut self, script: &[u8], out: &mut Vec<u8>) {
        self.scripts += 1;
        let mut runner = Runner::default();
        let mut listener = Listener::default();
        for line in script.split(|byte| *byte == b'\n') {
            let watched = [&b"prune"[..], b"release", b"bundle", b"record_abandonment"];
            let watched = watched.iter().any(|name| line.starts_with(name));
            let before = watched.then(|| runner.book.clone());
            if !runner.take(line, out) {
                self.malformed += 1;
                return;
            }
            listener.hear(line, runner.reply.as_ref());
            if let Some(reply) = &runner.reply {
                self.count(reply, before, &runner);
            }
        }
        self.pairs.count(&listener);
        if let Some(verdict) = Verdict::on(script) {
            self.left_out.count(&verdict);
        }
    }

    /// How often the call of that name was refused with that number.
    pub fn refused(&self, name: &str, number: u64) -> u64 {
        let place = CALLS.iter().position(|call| call.name == name);
        place.map_or(0, |place| self.calls.0[place].0[number as usize])
    }

    pub fn judged(&self, rule: Rule) -> Judged {
        self.prunes.by(rule)
    }

    /// How the departure that counts was chosen.
    pub fn choices(&self) -> &Choices {
        self.prunes.choices()
    }

    pub fn bundles(&self) -> &Bundles {
        &self.bundles
    }

    pub fn snapshots(&self) -> &Snapshots {
        &self.snapshots
    }

    /// How rebuilt entries were counted by shard.
    pub fn counts(&self) -> &Counts {
        &self.counts
    }

    /// How trees went, and what was asked of them.
    pub fn trees(&self) -> &Trees {
        &self.trees
    }

    /// How often several prunes were set against one.
    pub fn pairs(&self) -> Pairs {
        self.pairs
    }

    /// How pairs of calls with prunes between them and without went.
    pub fn left_out(&self) -> LeftOut {
        self.left_out
    }

    pub fn limits(&self) -> &Limits {
        &self.limits
    }

    /// How often an entry went by each decision of closes, and how often a core became a remainder.
    pub fn exits(&self) -> [u64; 3] {
        [self.accepted, self.aborted, self.remainders]
    }

    fn count(&mut self, reply: &Reply, before: Option<Book>, runner: &Runner) {
        let place = CALLS.iter().position(|call| call.name == reply.call.name);
        let (statuses, said) = &mut self.calls.0[place.expect("a reply is some call's")];
        statuses[reply.status as usize] += 1;
        *said += u64::from(reply.said.first().is_some_and(|word| *word != 0));
        if let ("bundle", Some(before)) = (reply.call.name, &before) {
            self.bundles
                .count(&runner.numbers, reply, before, &runner.book);
        }
        if let ("record_abandonment", Some(before)) = (reply.call.name, &before) {
            self.counts.record(&runner.numbers, reply, before);
        }
        match reply.call.name {
            "snapshot" => self.snapshots.wrote(reply, &runner.book),
            "restore" => self.snapshots.read(&runner.numbers, reply),
            "rebuilt" => self.counts.sum(reply, &runner.book),
            "rebuilt_by_shard" => self.counts.list(reply, &runner.book),
            "leaf_for_route" | "leaves" | "counterparts_by_tree" => {
                self.trees.count(&runner.numbers, reply, &runner.book);
            }
            _ => {}
        }
        if reply.status != 0 {
            return;
        }
        match (reply.call.name, before) {
            ("prune", Some(before)) => {
                self.prunes
                    .count(runner.numbers[0], reply, &before, &runner.book);
            }
            ("release_resolved", Some(before)) => self.count_remainders(&before, runner),
            ("closes", _) => self.count_closes(reply),
            ("dump", _) => self.limits.count(&reply.said),
            _ => {}
        }
    }

    fn count_closes(&mut self, reply: &Reply) {
        for item in reply.lent.chunks_exact(2).take(reply.said[0] as usize) {
            let counted = if item[1] == 1 {
                &mut self.accepted
            } else {
                &mut self.aborted
            };
            *counted += 1;
        }
    }

    fn count_remainders(&mut self, before: &Book, runner: &Runner) {
        let before = before.tally().owed;
        let after = runner.book.tally().owed;
        let turned = after.iter().filter(|(transaction, entry)| {
            let was = before.get(transaction).map(|entry| entry.part);
            entry.part == REMAINDER && was != Some(REMAINDER)
        });
        self.remainders += turned.count() as u64;
    }
}

impl fmt::Display for Coverage {
    fn fmt(&self, f: &mut fmt::Formatter) -> fmt::Result {
        writeln!(
            f,
            "{} scripts, of which {} stop at a malformed line",
            self.scripts, self.malformed
        )?;
        writeln!(f, "{}", self.calls)?;
        writeln!(f, "{}", self.bundles)?;
        writeln!(f, "{}", self.snapshots)?;
        writeln!(f, "{}", self.counts)?;
        writeln!(f, "{}", self.trees)?;
        writeln!(f, "{}", self.prunes)?;
        let Pairs {
            equal,
            different,
            fell,
            reported,
        } = self.pairs;
        writeln!(
            f,
            "several prunes against one: {equal} pairs alike, {different} not; {fell} entries fell by the one, {reported} reported"
        )?;
        writeln!(f, "{}", self.left_out)?;
        writeln!(
            f,
            "closed: {} Accept, {} Aborted",
            self.accepted, self.aborted
        )?;
        writeln!(f, "cores turned to remainders: {}", self.remainders)?;
        write!(f, "{}", self.limits)
    }
}

impl fmt::Display for Calls {
    fn fmt(&self, f: &mut fmt::Formatter) -> fmt::Result {
        write!(
            f,
            "call                  accepted  said more than 0   refused (number: how often)"
        )?;
        for (call, (statuses, said)) in CALLS.iter().zip(&self.0) {
            write!(f, "\n{:<21} {:>8} {:>17}  ", call.name, statuses[0], said)?;
            for (number, count) in statuses.iter().enumerate().skip(1).filter(|(_, n)| **n > 0) {
                write!(f, " {number}: {count}")?;
            }
        }
        Ok(())
    }
}
