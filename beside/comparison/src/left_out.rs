//! Prunes left out: calls with prunes between them against the same calls without, and one prune at the end of both. Where every call stays
//! apart (`apart`) nothing may show; where one does not, something may.

use std::fmt;

use reference::{ENTRIES, Reply, Runner};

use crate::apart::{Failed, HYPOTHESES, Hypothesis, Made, Omitted, changes};
use crate::bundles::contents;

/// Stands before the calls that are made with the prunes and without; a prune and a dump end them.
pub const MARK: &[u8] = b"# prunes left out";

/// A script with the mark in it, made twice: as it is, and without the prunes behind the mark; each time a last prune and a dump.
pub fn pair(text: &[u8], last: u64) -> Vec<u8> {
    let lines: Vec<&[u8]> = text.split_inclusive(|byte| *byte == b'\n').collect();
    let is_mark = |line: &&[u8]| line.strip_suffix(b"\n") == Some(MARK);
    let mark = lines.iter().position(is_mark).unwrap_or(lines.len());
    let (before, calls) = lines.split_at(mark);
    let others = calls.iter().filter(|line| !line.starts_with(b"prune"));
    let bare: Vec<&[u8]> = others.copied().collect();
    let end = format!("prune {last} lent {}\ndump\n", 3 * ENTRIES).into_bytes();
    let before = before.concat();
    [
        &before,
        &calls.concat(),
        &end,
        &before,
        &bare.concat(),
        &end[..],
    ]
    .concat()
}

/// In what the two sides differ.
#[derive(Clone, Copy, Default)]
pub struct Shown {
    pub answers: bool,
    pub ledger: bool,
    pub reports: bool,
}

impl Shown {
    pub fn any(self) -> bool {
        self.answers || self.ledger || self.reports
    }
}

/// What may come up in a pair.
#[derive(Clone, Copy, PartialEq)]
pub enum Came {
    Fell,
    Dropped,
    /// A call changed the bare ledger when a prune that takes something had been left out.
    Changed,
    Marked,
    Stamped,
    Closed,
    /// A bundle changed the bare ledger when a prune that takes something had been left out.
    Bundled,
    Clockless,
    Short,
    /// Made where the prunes are, with a list that would be too short where none was made.
    Exact,
}

pub const CAME: [(Came, &str); 10] = [
    (Came::Fell, "an entry fell"),
    (Came::Dropped, "a departure was dropped"),
    (Came::Changed, "a later call changed the ledger"),
    (Came::Marked, "a mark on a fallen entry"),
    (Came::Stamped, "a stamp on a dropped departure"),
    (Came::Closed, "closes of a fallen entry"),
    (Came::Bundled, "a later bundle changed the ledger"),
    (Came::Clockless, "a prune refused for its clock"),
    (Came::Short, "a prune refused for its list"),
    (Came::Exact, "a list too short but for prunes"),
];

/// What a pair failed, and what it showed.
#[derive(Default)]
pub struct Verdict {
    pub failed: Failed,
    pub shown: Shown,
    /// Not as many fell, those counted that closed before: told only of pairs that pass, since the others seldom add up.
    uneven: bool,
    came: [bool; CAME.len()],
}

impl Verdict {
    /// The verdict on a script, if it is a pair: its calls after the mark, up to the dump, are made on two ledgers.
    pub fn on(script: &[u8]) -> Option<Self> {
        let mut lines = script.split(|byte| *byte == b'\n');
        lines.clone().find(|line| *line == MARK)?;
        let mut sides = Sides::default();
        for line in lines.by_ref().take_while(|line| *line != MARK) {
            sides.made.take(line, &mut Vec::new()).then_some(())?;
        }
        sides.bare.book = sides.made.book.clone();
        let calls: Vec<&[u8]> = lines.take_while(|line| *line != b"dump").collect();
        let (last, calls) = calls.split_last()?;
        for line in calls {
            sides.call(line)?;
        }
        sides.last(last)?;
        Some(sides.verdict)
    }

    pub fn passes(&self) -> bool {
        self.failed == Failed::default()
    }

    /// A pair that passes and shows: what was stated does not hold.
    pub fn refutes(&self) -> bool {
        self.passes() && (self.shown.any() || self.uneven)
    }

    fn note(&mut self, what: Came, came: bool) {
        self.came[what as usize] |= came;
    }

    fn fail(&mut self, failed: Failed) {
        for (all, one) in self.failed.iter_mut().zip(failed) {
            *all |= one;
        }
    }
}

/// The ledger on which the prunes are made, and the bare one.
#[derive(Default)]
struct Sides {
    made: Runner,
    bare: Runner,
    omitted: Omitted,
    /// The reports of the prunes that were made, and how many fell.
    told: Vec<Vec<u64>>,
    gone: u64,
    /// How many of the fallen closed on the bare ledger.
    closed: u64,
    verdict: Verdict,
}

impl Sides {
    /// None where the line is no call that may lie there.
    fn call(&mut self, line: &[u8]) -> Option<()> {
        self.made.take(line, &mut Vec::new());
        let reply = self.made.reply.as_ref()?;
        changes(reply.call.name).then_some(())?;
        let made = Made {
            call: reply.call,
            numbers: &self.made.numbers,
            lent: reply.lent.len(),
        };
        self.verdict
            .fail(self.omitted.failed(&made, &self.bare.book));
        if reply.call.name == "prune" {
            self.told.extend(rows(reply, 3));
            self.gone += gone(reply);
            self.verdict.note(Came::Clockless, reply.status == 3);
            self.verdict.note(Came::Short, reply.status == 9);
            let exact = reply.status == 0 && made.status_on(&self.bare.book) == 9;
            self.verdict.note(Came::Exact, exact);
            let now = self.made.numbers[0];
            self.omitted.leave_out(now, made.lent, &self.bare.book);
            let (fallen, dropped) = (&self.omitted.fallen, &self.omitted.dropped);
            self.verdict.note(Came::Fell, !fallen.is_empty());
            self.verdict.note(Came::Dropped, !dropped.is_empty());
        } else {
            self.other(line);
        }
        Some(())
    }

    /// A call that is no prune, on the bare ledger too.
    fn other(&mut self, line: &[u8]) {
        let before = contents(&self.bare.book);
        self.bare.take(line, &mut Vec::new());
        let (Some(made), Some(bare)) = (&self.made.reply, &self.bare.reply) else {
            return;
        };
        let expected = less(&self.omitted, bare);
        self.verdict.shown.answers |= said(made) != expected;
        self.closed += (said(bare).2.len() - expected.2.len()) as u64;
        let changed = before != contents(&self.bare.book);
        let (fallen, dropped) = (&self.omitted.fallen, &self.omitted.dropped);
        let numbers = &self.bare.numbers;
        let taken = !fallen.is_empty() || !dropped.is_empty();
        let (what, came) = match bare.call.name {
            "settled" | "returned" => (Came::Marked, changed && fallen.contains(&numbers[1])),
            "stamp_terminal" => (Came::Stamped, changed && dropped.contains(&numbers[0])),
            "closes" => (Came::Closed, said(bare) != expected),
            "bundle" => (Came::Bundled, changed && taken),
            _ => (Came::Changed, false),
        };
        self.verdict.note(what, came);
        self.verdict.note(Came::Changed, changed && taken);
    }

    /// None where the line is no prune, or one that is refused.
    fn last(&mut self, line: &[u8]) -> Option<()> {
        self.made.take(line, &mut Vec::new());
        self.bare.take(line, &mut Vec::new());
        let (made, bare) = (self.made.reply.as_ref()?, self.bare.reply.as_ref()?);
        if made.call.name != "prune" || made.status != 0 || bare.status != 0 {
            return None;
        }
        let mut failed = Failed::default();
        failed[Hypothesis::Steady as usize] = self.omitted.clock > self.made.numbers[0];
        self.verdict.fail(failed);
        self.verdict.uneven = self.gone + gone(made) != gone(bare) + self.closed;
        self.told.extend(rows(made, 3));
        self.told.sort();
        self.verdict.shown.reports = !rows(bare, 3).eq(self.told.iter().cloned());
        self.verdict.shown.ledger = contents(&self.made.book) != contents(&self.bare.book);
        Some(())
    }
}

/// The items that a call wrote.
fn rows(reply: &Reply, item: usize) -> impl Iterator<Item = Vec<u64>> {
    let count = reply.said.first().map_or(0, |count| *count as usize);
    let count = if reply.status == 0 { count } else { 0 };
    let items = reply.lent.chunks_exact(item).take(count);
    items.map(<[u64]>::to_vec)
}

/// How many fell by a prune.
fn gone(reply: &Reply) -> u64 {
    if reply.status == 0 { reply.said[1] } else { 0 }
}

/// The refusal, the answers and the words that a call wrote.
fn said(reply: &Reply) -> (u64, Vec<u64>, Vec<Vec<u64>>) {
    let answers = if reply.status == 0 {
        &reply.said[..]
    } else {
        &[]
    };
    let words = rows(reply, reply.call.item.max(1));
    (reply.status, answers.to_vec(), words.collect())
}

/// What a call on the bare ledger should say on the other: of closes the same less the fallen.
fn less(omitted: &Omitted, bare: &Reply) -> (u64, Vec<u64>, Vec<Vec<u64>>) {
    let (status, mut answers, mut words) = said(bare);
    if bare.call.name == "closes" && status == 0 {
        words.retain(|item| !omitted.fallen.contains(&item[0]));
        answers = vec![words.len() as u64];
    }
    (status, answers, words)
}

/// Pairs of one kind, and how many of them showed, and in what.
#[derive(Clone, Copy, Default)]
pub struct Count {
    pub pairs: u64,
    pub shown: u64,
    pub answers: u64,
    pub ledger: u64,
    pub reports: u64,
}

impl Count {
    fn add(&mut self, shown: Shown) {
        self.pairs += 1;
        self.shown += u64::from(shown.any());
        self.answers += u64::from(shown.answers);
        self.ledger += u64::from(shown.ledger);
        self.reports += u64::from(shown.reports);
    }
}

/// The pairs that pass, those that fail one hypothesis alone, and the others; of the first, what came up in how many.
#[derive(Clone, Copy, Default)]
pub struct LeftOut {
    pub passing: Count,
    pub alone: [Count; HYPOTHESES.len()],
    pub several: Count,
    came: [u64; CAME.len()],
}

impl LeftOut {
    pub fn count(&mut self, verdict: &Verdict) {
        let failed = |place: &usize| verdict.failed[*place];
        let failed: Vec<usize> = (0..HYPOTHESES.len()).filter(failed).collect();
        match failed[..] {
            [] => {
                self.passing.add(verdict.shown);
                for (count, came) in self.came.iter_mut().zip(verdict.came) {
                    *count += u64::from(came);
                }
            }
            [one] => self.alone[one].add(verdict.shown),
            _ => self.several.add(verdict.shown),
        }
    }

    /// In how many of the passing pairs it came up.
    pub fn passing_with(&self, what: Came) -> u64 {
        self.came[what as usize]
    }
}

impl fmt::Display for LeftOut {
    fn fmt(&self, f: &mut fmt::Formatter) -> fmt::Result {
        writeln!(
            f,
            "prunes left out                     pairs    showed   in answers   in the ledger   in reports"
        )?;
        let alone = HYPOTHESES.iter().zip(&self.alone);
        let alone = alone.map(|((_, name), count)| (format!("fails {name} alone"), count));
        let first = [("passes every test".to_string(), &self.passing)];
        let last = [("fails several".to_string(), &self.several)];
        for (name, count) in first.into_iter().chain(alone).chain(last) {
            writeln!(
                f,
                "{name:<30} {:>10} {:>9} {:>12} {:>15} {:>12}",
                count.pairs, count.shown, count.answers, count.ledger, count.reports
            )?;
        }
        write!(f, "in pairs that pass:")?;
        for (what, name) in CAME {
            write!(f, "\n{name:<32} {:>8}", self.passing_with(what))?;
        }
        Ok(())
    }
}
