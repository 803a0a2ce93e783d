//! Counts how the departure that counts was chosen over the remote routes of entries that rule 4 judged: what each of the three steps left of the
//! departures on file, and where another choice would have answered otherwise.

use std::fmt;

use reference::{Held, Leaving};

use crate::apart::owns;

/// What a route came upon.
#[derive(Clone, Copy, PartialEq)]
pub enum Choice {
    NoOwner,
    NoneAfter,
    AtAnchor,
    One,
    Several,
    EarlierOwner,
    EqualCuts,
    AnotherReadable,
    AnotherSilent,
    HigherOtherwise,
}

pub const CHOICES: [(Choice, &str); 10] = [
    (Choice::NoOwner, "no departed shard owns it"),
    (Choice::NoneAfter, "owners, none with its cut after"),
    (Choice::AtAnchor, "an owner's cut is the anchor"),
    (Choice::One, "one over it"),
    (Choice::Several, "several over it"),
    (Choice::EarlierOwner, "some over it, another owner before"),
    (Choice::EqualCuts, "smallest cuts equal"),
    (Choice::AnotherReadable, "silent, another over it readable"),
    (Choice::AnotherSilent, "readable, another over it silent"),
    (Choice::HigherOtherwise, "cuts equal, the higher otherwise"),
];

#[derive(Default)]
pub struct Choices([u64; CHOICES.len()]);

impl Choices {
    pub fn of(&self, choice: Choice) -> u64 {
        self.0[choice as usize]
    }

    /// Count the remote routes of an entry that a prune at `now` judged by rule 4, on the ledger before it.
    pub fn count(&mut self, now: u64, transaction: u64, held: &Held) {
        let known = |entry: &&reference::Holder| entry.transaction == transaction;
        let Some(entry) = held.entries.iter().find(known) else {
            return;
        };
        let remote = |route: &&u64| !owns(held.local, **route);
        for route in entry.routes.iter().filter(remote) {
            let owners: Vec<&Leaving> = held
                .departures
                .iter()
                .filter(|d| owns(d.shard, *route))
                .collect();
            for (count, came) in self.0.iter_mut().zip(choices(now, entry.anchor, &owners)) {
                *count += u64::from(came);
            }
        }
    }
}

/// Whether each of `CHOICES` came up, of the owners of a route by rising shard.
fn choices(now: u64, anchor: u64, owners: &[&Leaving]) -> [bool; CHOICES.len()] {
    let readable = |d: &Leaving| d.until.is_none_or(|until| now <= until);
    let over: Vec<&Leaving> = owners.iter().copied().filter(|d| d.cut > anchor).collect();
    // The first of the smallest, as the shards rise.
    let counting = over.iter().copied().min_by_key(|d| d.cut);
    let level: Vec<&Leaving> = over
        .iter()
        .copied()
        .filter(|d| counting.is_some_and(|one| one.cut == d.cut))
        .collect();
    let answers = counting.map(readable);
    let another = |want: bool| answers == Some(!want) && over.iter().any(|d| readable(d) == want);
    CHOICES.map(|(choice, _)| match choice {
        Choice::NoOwner => owners.is_empty(),
        Choice::NoneAfter => !owners.is_empty() && over.is_empty(),
        Choice::AtAnchor => owners.iter().any(|d| d.cut == anchor),
        Choice::One => over.len() == 1,
        Choice::Several => over.len() > 1,
        Choice::EarlierOwner => !over.is_empty() && over.len() < owners.len(),
        Choice::EqualCuts => level.len() > 1,
        Choice::AnotherReadable => another(true),
        Choice::AnotherSilent => another(false),
        Choice::HigherOtherwise => level.iter().any(|d| Some(readable(d)) != answers),
    })
}

impl fmt::Display for Choices {
    fn fmt(&self, f: &mut fmt::Formatter) -> fmt::Result {
        write!(f, "remote routes of entries judged by rule 4:")?;
        for (choice, name) in CHOICES {
            write!(f, "\n{name:<38} {:>8}", self.of(choice))?;
        }
        Ok(())
    }
}
