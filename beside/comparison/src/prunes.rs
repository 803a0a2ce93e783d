//! Counts by which rule of prune entries were judged, and how: the first rule that fits is read off the ledger before the prune.

use std::fmt;

use reference::{Book, ENTRIES, FILLER, Given, Remote, Reply, Standing, call_named};

use crate::choices::Choices;
use crate::sides::{HEAD, Sides};

const LEG: u64 = 1;
const CORE: u64 = 2;
const REMAINDER: u64 = 3;
const EXECUTED: u64 = 2;

/// The five rules, the second by why it fits, the fourth by whether the departures let it fall.
#[derive(Clone, Copy, PartialEq)]
pub enum Rule {
    Unexecuted,
    Leg,
    Absent,
    Named,
    Open,
    Departed,
    Deadline,
}

pub const RULES: [(Rule, &str); 7] = [
    (Rule::Unexecuted, "1, core with certificate below 2"),
    (Rule::Leg, "2, leg or remainder"),
    (Rule::Absent, "2, absence"),
    (Rule::Named, "3, named by a record"),
    (Rule::Open, "4, a remote route without departure"),
    (Rule::Departed, "4, departures over all remote routes"),
    (Rule::Deadline, "5, none of these"),
];

/// Entries judged by one rule. The edges are those of them that would have gone the other way one clock later or earlier.
#[derive(Clone, Copy, Default)]
pub struct Judged {
    pub stood: u64,
    pub stood_last: u64,
    pub fell: u64,
    pub fell_first: u64,
    pub sides: Sides,
}

#[derive(Default)]
pub struct Prunes {
    judged: [Judged; RULES.len()],
    choices: Choices,
}

impl Prunes {
    pub fn by(&self, rule: Rule) -> Judged {
        self.judged[rule as usize]
    }

    pub fn choices(&self) -> &Choices {
        &self.choices
    }

    /// Count a prune at `now` that was accepted.
    pub fn count(&mut self, now: u64, reply: &Reply, before: &Book, after: &Book) {
        let earlier = now.checked_sub(1).and_then(|now| pruned(before, now));
        let later = pruned(before, now + 1);
        let mut fallen = Vec::new();
        let tally = before.tally();
        let held = before.held();
        for (&transaction, entry) in &tally.owed {
            let rule = first_that_fits(entry);
            if matches!(rule, Rule::Open | Rule::Departed) {
                self.choices.count(now, transaction, &held);
            }
            let judged = &mut self.judged[rule as usize];
            let stands = after.owes(transaction);
            judged.sides.count(now, rule, entry, &tally, stands);
            if stands {
                let goes = later.as_ref().is_some_and(|book| !book.owes(transaction));
                judged.stood += 1;
                judged.stood_last += u64::from(goes);
            } else {
                let stood = earlier.as_ref().is_some_and(|book| book.owes(transaction));
                judged.fell += 1;
                judged.fell_first += u64::from(stood);
                fallen.push((transaction, rule));
            }
        }
        check(reply, &fallen);
    }
}

fn first_that_fits(entry: &Standing) -> Rule {
    match (entry.part, entry.certificate, &entry.remote) {
        (CORE, ..EXECUTED, _) => Rule::Unexecuted,
        (LEG | REMAINDER, _, _) => Rule::Leg,
        _ if entry.absences > 0 => Rule::Absent,
        _ if entry.named => Rule::Named,
        (_, 1.., Remote::Open) => Rule::Open,
        (_, 1.., Remote::Departed) => Rule::Departed,
        _ => Rule::Deadline,
    }
}

/// The book after a prune at `now`, unless that is no time.
pub fn pruned(book: &Book, now: u64) -> Option<Book> {
    let mut book = book.clone();
    let given = Given {
        numbers: &[now],
        lent: &mut [FILLER; 3 * ENTRIES],
        said: &mut Vec::new(),
    };
    let prune = call_named(b"prune").expect("a call of the table");
    prune.make(&mut book, given).ok().map(|()| book)
}

/// Hold the rules found to the report: by rule 3 one falls covered, by rule 4 uncovered, by the others unreported.
fn check(reply: &Reply, fallen: &[(u64, Rule)]) {
    // A repeated prune tells of its last time only, when all had fallen.
    if reply.said[1] == 0 {
        return;
    }
    let expected = fallen.iter().filter_map(|(transaction, rule)| match rule {
        Rule::Named => Some([*transaction, 1]),
        Rule::Departed => Some([*transaction, 0]),
        _ => None,
    });
    let reports = reply.lent.chunks_exact(3).take(reply.said[0] as usize);
    let told = reports.map(|item| [item[0], item[1]]);
    assert!(told.eq(expected), "a report that its rule does not give");
}

impl fmt::Display for Prunes {
    fn fmt(&self, f: &mut fmt::Formatter) -> fmt::Result {
        write!(
            f,
            "judged by rule                            stood  (at the last clock)      fell  (at the first)"
        )?;
        for (rule, name) in RULES {
            let Judged {
                stood,
                stood_last,
                fell,
                fell_first,
                ..
            } = self.by(rule);
            write!(
                f,
                "\n{name:<38} {stood:>8}  {stood_last:>19}  {fell:>8}  {fell_first:>14}"
            )?;
        }
        write!(f, "\n{HEAD}")?;
        for (rule, name) in RULES {
            write!(f, "\n{name:<38}{}", self.by(rule).sides)?;
        }
        write!(f, "\n{}", self.choices)
    }
}
