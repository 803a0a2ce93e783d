//! When a prune that was left out should not show: the tests of the definitions (`LeftOut`), written anew over the Rust's ledger. A call is
//! tested on the bare ledger, on which no prune was made, against what the last prune left out takes there.

use std::collections::BTreeSet;

use reference::{
    Book, Call, ENTRIES, FILLER, Given, Held, Holder, LAST_SHARD, Leaving, call_named,
};

use crate::items::{in_order, written};
use crate::prunes::pruned;

/// What is demanded of a call, in the order of the tests.
#[derive(Clone, Copy, PartialEq)]
pub enum Hypothesis {
    Named,
    Clear,
    Kept,
    Unheld,
    Room,
    Steady,
}

pub const HYPOTHESES: [(Hypothesis, &str); 6] = [
    (Hypothesis::Named, "named"),
    (Hypothesis::Clear, "clear"),
    (Hypothesis::Kept, "kept"),
    (Hypothesis::Unheld, "unheld"),
    (Hypothesis::Room, "room"),
    (Hypothesis::Steady, "steady"),
];

/// For each hypothesis whether it failed.
pub type Failed = [bool; HYPOTHESES.len()];

/// Entries full, departures full, the lent list too short.
const FOR_ROOM: [u64; 3] = [6, 8, 9];

/// The last prune left out: what it would have taken, by transaction and by shard, and when.
#[derive(Default)]
pub struct Omitted {
    pub fallen: BTreeSet<u64>,
    pub dropped: BTreeSet<u64>,
    pub clock: u64,
}

impl Omitted {
    /// Leave out a prune at `now`, lent so many words. One that is refused on the ledger on which the prunes are made is none.
    pub fn leave_out(&mut self, now: u64, lent: usize, bare: &Book) {
        let (Some(after), Some(needed)) = (pruned(bare, now), self.needed(now, bare)) else {
            return;
        };
        if lent < needed {
            return;
        }
        let (before, after) = (bare.held(), after.held());
        self.fallen = &transactions(&before) - &transactions(&after);
        self.dropped = &shards(&before) - &shards(&after);
        self.clock = now;
    }

    /// How many words a prune at `now` needs on the ledger on which the prunes are made: there the fallen are not reported again. None where the
    /// clock is no time.
    pub fn needed(&self, now: u64, bare: &Book) -> Option<usize> {
        let (mut lent, mut said) = ([FILLER; 3 * ENTRIES], Vec::new());
        let given = Given {
            numbers: &[now],
            lent: &mut lent,
            said: &mut said,
        };
        let prune = call_named(b"prune").expect("a call of the table");
        prune.make(&mut bare.clone(), given).ok()?;
        let reports = lent.chunks_exact(3).take(said[0] as usize);
        Some(3 * reports.filter(|r| !self.fallen.contains(&r[0])).count())
    }

    /// What the call fails on the bare ledger. A bundle fails what one of its items' calls does, each on the ledger that the one before leaves
    /// there. Those behind one that is refused are not made, and nothing is asked of them.
    pub fn failed(&self, made: &Made, bare: &Book) -> Failed {
        if made.call.name != "bundle" {
            return self.failed_alone(made, bare);
        }
        let mut failed = Failed::default();
        let mut bare = bare.clone();
        for item in in_order(written(made.numbers)) {
            let (call, numbers) = item.call();
            let item = Made {
                call,
                numbers: &numbers,
                lent: 0,
            };
            let one = self.failed_alone(&item, &bare);
            for (all, one) in failed.iter_mut().zip(one) {
                *all |= one;
            }
            if item.make_on(&mut bare) != 0 {
                break;
            }
        }
        failed
    }

    fn failed_alone(&self, made: &Made, bare: &Book) -> Failed {
        let held = bare.held();
        let touch = touch(made.call.name, made.numbers);
        let owed = |e: &Holder| bare.owes(e.transaction);
        let filed = |d: &Leaving| held.departures.iter().any(|known| known.shard == d.shard);
        let holds = |d: &Leaving, e: &Holder| holds(held.local, d, e);
        let clear = |e: &Holder| {
            let mut dropped = held.departures.iter();
            !dropped.any(|d| self.dropped.contains(&d.shard) && holds(d, e))
        };
        let unheld = |d: &Leaving| {
            let mut fallen = held.entries.iter();
            !fallen.any(|e| self.fallen.contains(&e.transaction) && holds(d, e))
        };
        let passed = [
            touch.names.iter().all(|t| !self.fallen.contains(t)),
            touch.takes.iter().all(|e| owed(e) || clear(e)),
            touch.shards.iter().all(|s| !self.dropped.contains(s)),
            touch.files.iter().all(|d| filed(d) || unheld(d)),
            made.call.name == "prune" || !FOR_ROOM.contains(&made.status_on(bare)),
            touch.prunes.iter().all(|now| self.clock <= *now),
        ];
        passed.map(|passed| !passed)
    }
}

fn transactions(held: &Held) -> BTreeSet<u64> {
    held.entries.iter().map(|e| e.transaction).collect()
}

fn shards(held: &Held) -> BTreeSet<u64> {
    held.departures.iter().map(|d| d.shard).collect()
}

/// A call with its numbers and the length of its lent list.
pub struct Made<'a> {
    pub call: &'static Call,
    pub numbers: &'a [u64],
    pub lent: usize,
}

impl Made<'_> {
    /// 0 or the refusal, if it were made there.
    pub fn status_on(&self, book: &Book) -> u64 {
        self.make_on(&mut book.clone())
    }

    fn make_on(&self, book: &mut Book) -> u64 {
        let given = Given {
            numbers: self.numbers,
            lent: &mut vec![FILLER; self.lent],
            said: &mut Vec::new(),
        };
        self.call.make(book, given).err().unwrap_or(0)
    }
}

/// What of the ledger a call touches: the transactions that it names, the entries that it takes in, the shards of whose departure it is,
/// the departures that it files, the clock at which it prunes.
#[derive(Default)]
struct Touch {
    names: Vec<u64>,
    takes: Vec<Holder>,
    shards: Vec<u64>,
    files: Vec<Leaving>,
    prunes: Vec<u64>,
}

/// The calls that change the ledger, but `new`: only these may lie between the prunes.
pub fn changes(name: &str) -> bool {
    matches!(
        name,
        "register_committed"
            | "record_absence"
            | "certify"
            | "record_abandonment"
            | "settled"
            | "returned"
            | "closes"
            | "fated"
            | "release_resolved"
            | "forget"
            | "record_terminal"
            | "stamp_terminal"
            | "prune"
            | "bundle"
    )
}

fn touch(name: &str, numbers: &[u64]) -> Touch {
    let words = Words(numbers);
    let nothing = Touch::default();
    match name {
        "register_committed" => Touch {
            names: vec![words.at(3)],
            takes: vec![words.admitted()],
            ..nothing
        },
        "record_abandonment" => Touch {
            names: words.rebuilt().iter().map(|e| e.transaction).collect(),
            takes: words.rebuilt(),
            shards: vec![words.at(1)],
            ..nothing
        },
        "release_resolved" => Touch {
            names: words.decided(),
            ..nothing
        },
        "record_absence" | "certify" | "fated" | "forget" => Touch {
            names: vec![words.at(0)],
            ..nothing
        },
        "record_terminal" => Touch {
            shards: vec![words.at(0)],
            files: vec![Leaving {
                shard: words.at(0),
                cut: words.at(1),
                until: None,
            }],
            ..nothing
        },
        "prune" => Touch {
            prunes: vec![words.at(0)],
            ..nothing
        },
        _ => nothing,
    }
}

/// A call's words, read whether they are well formed or not: the tests ask also of a call that is refused. Where there is none a word is 0.
struct Words<'a>(&'a [u64]);

impl<'a> Words<'a> {
    fn at(&self, place: usize) -> u64 {
        self.0.get(place).copied().unwrap_or(0)
    }

    /// At most so many words from a place on.
    fn part(&self, from: usize, count: u64) -> &'a [u64] {
        let rest = self.0.get(from..).unwrap_or_default();
        &rest[..rest.len().min(count as usize)]
    }

    fn admitted(&self) -> Holder {
        Holder {
            transaction: self.at(3),
            anchor: self.at(6),
            named: 0,
            routes: self.part(9, self.at(0)).to_vec(),
        }
    }

    /// The entries that an abandonment record brings back.
    fn rebuilt(&self) -> Vec<Holder> {
        let groups = (self.at(0) as usize).saturating_add(2);
        let mut reach = (self.at(0) as usize)
            .saturating_mul(5)
            .saturating_add(groups);
        let sizes = self.part(2, self.at(0)).iter();
        let holder = |(turn, size): (usize, &u64)| {
            let group = groups.saturating_add(5 * turn);
            let routes = self.part(reach, *size).to_vec();
            reach = reach.saturating_add(*size as usize);
            Holder {
                transaction: self.at(group),
                anchor: self.at(group.saturating_add(3)),
                named: self.at(1),
                routes,
            }
        };
        sizes.enumerate().map(holder).collect()
    }

    /// The transactions of a finalization's lines, as far as there are decisions.
    fn decided(&self) -> Vec<u64> {
        let count = self.at(0);
        let decisions = self.part((count as usize).saturating_add(2), count);
        self.part(2, count)[..decisions.len()].to_vec()
    }
}

/// The transactions of an abandonment record's groups, as far as there are words.
pub fn rebuilt(numbers: &[u64]) -> Vec<u64> {
    let groups = Words(numbers).rebuilt().into_iter();
    groups.map(|e| e.transaction).collect()
}

/// The entry is named by the departure's shard, or the departure is over a remote route of it.
fn holds(local: u64, d: &Leaving, e: &Holder) -> bool {
    let over = |route: &u64| owns(d.shard, *route) && e.anchor < d.cut;
    let named = e.named > 0 && e.named == d.shard;
    let mut routes = e.routes.iter();
    named || routes.any(|route| !owns(local, *route) && over(route))
}

/// Whether a route's top bits, as many as the shard's depth, are the shard without its highest bit: said of any number, as the
/// definitions do, for which one that is no shard is as deep as the deepest.
pub fn owns(shard: u64, route: u64) -> bool {
    let depth = shard.clamp(1, LAST_SHARD).ilog2();
    let top = u128::from(route) >> (64 - depth);
    top == u128::from(shard.saturating_sub(1 << depth))
}
