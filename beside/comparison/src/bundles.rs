//! Counts how bundles went: by how many items they named, of which kinds, by what they answered, and which edges came up.

use std::collections::BTreeSet;
use std::fmt;

use reference::{ABSENCES, Book, COUNTS, DEPARTURES, ENTRIES, Given, ITEMS, KINDS, Reply};

use crate::items::{ABSENCE, ADMISSION, FINALIZATION, Item, in_order, written};

/// How many items a bundle names.
const SIZES: [(&str, u64); 7] = [
    ("0", 0),
    ("1", 1),
    ("2 to 9", 9),
    ("10 to 62", ITEMS - 2),
    ("63", ITEMS - 1),
    ("64", ITEMS),
    ("65 and more", u64::MAX),
];

/// The answers, in their order.
pub const ANSWERS: [&str; 3] = ["taken in", "rebuilt", "released"];

#[derive(Clone, Copy)]
pub enum Edge {
    Kind0,
    Kind6,
    Both,
    Over,
    NoWord,
    Short,
    Long,
    Wrapping,
    Middle,
    Mixed,
    Absent,
    Named,
    Departures,
    Entries,
    Absences,
    Counts,
    Ninth,
    Uncounted,
    Opened,
    Two,
}

pub const EDGES: [(Edge, &str); 20] = [
    (Edge::Kind0, "kind 0: 10"),
    (Edge::Kind6, "kind 6: 10"),
    (Edge::Both, "10, and lengths not made up"),
    (Edge::Over, "65 items: 11"),
    (Edge::NoWord, "no word: 11"),
    (Edge::Short, "a length one too long: 11"),
    (Edge::Long, "a word too many: 11"),
    (Edge::Wrapping, "lengths made up by wrapping: 11"),
    (Edge::Middle, "refused behind items that changed"),
    (Edge::Mixed, "accepted, not written as done"),
    (Edge::Absent, "absence on one that it brings"),
    (Edge::Named, "line of one that it brings"),
    (Edge::Departures, "accepted, 32 departures then"),
    (Edge::Entries, "accepted, 48 entries then"),
    (Edge::Absences, "accepted, an entry's 8 absences"),
    (Edge::Counts, "accepted, 32 counts then"),
    (Edge::Ninth, "absence refused in it: 7"),
    (Edge::Uncounted, "record refused in it: 14"),
    (Edge::Opened, "14, behind one that opens the 32nd"),
    (Edge::Two, "two refused, of different numbers"),
];

#[derive(Default)]
pub struct Bundles {
    /// Accepted and refused, by how many items.
    sizes: [[u64; 2]; SIZES.len()],
    /// By kind, in how many accepted ones and how many items in all.
    kinds: [[u64; 2]; KINDS.len()],
    answered: [u64; ANSWERS.len()],
    edges: [u64; EDGES.len()],
}

impl Bundles {
    pub fn count(&mut self, numbers: &[u64], reply: &Reply, before: &Book, after: &Book) {
        let named = numbers.first().copied().unwrap_or(0);
        let size = SIZES.iter().position(|(_, most)| named <= *most);
        let refused = reply.status != 0;
        self.sizes[size.expect("the last has no end")][usize::from(refused)] += 1;
        match reply.status {
            0 => self.accepted(numbers, reply, before, after),
            10 | 11 => self.broken(numbers, reply.status),
            _ => self.refused(numbers, before),
        }
    }

    pub fn with_edge(&self, edge: Edge) -> u64 {
        self.edges[edge as usize]
    }

    /// Accepted and refused, by how many items.
    pub fn by_size(&self) -> impl Iterator<Item = (&'static str, [u64; 2])> {
        SIZES
            .iter()
            .zip(self.sizes)
            .map(|((name, _), counts)| (*name, counts))
    }

    /// In how many accepted ones a kind came up.
    pub fn by_kind(&self) -> impl Iterator<Item = (&'static str, u64)> {
        KINDS
            .iter()
            .zip(self.kinds)
            .map(|(kind, [bundles, _])| (kind.call, bundles))
    }

    /// How often each answer was more than 0.
    pub fn by_answer(&self) -> impl Iterator<Item = (&'static str, u64)> {
        ANSWERS.into_iter().zip(self.answered)
    }

    fn note(&mut self, edge: Edge, came: bool) {
        self.edges[edge as usize] += u64::from(came);
    }

    fn accepted(&mut self, numbers: &[u64], reply: &Reply, before: &Book, after: &Book) {
        let items = written(numbers);
        for (place, counts) in self.kinds.iter_mut().enumerate() {
            let of_kind = items.iter().filter(|item| item.kind == place as u64 + 1);
            let many = of_kind.count() as u64;
            *counts = [counts[0] + u64::from(many > 0), counts[1] + many];
        }
        for (count, said) in self.answered.iter_mut().zip(&reply.said) {
            *count += u64::from(*said > 0);
        }
        self.note(Edge::Mixed, !items.is_sorted_by_key(|item| item.kind));
        let of = |kind| items.iter().filter(move |item| item.kind == kind);
        let brought: BTreeSet<u64> = of(ADMISSION)
            .map(|item| item.words[3])
            .filter(|t| !before.owes(*t) && after.owes(*t))
            .collect();
        let on_brought = |t: &u64| brought.contains(t);
        let absent = of(ABSENCE).any(|item| on_brought(&item.words[0]));
        self.note(Edge::Absent, absent);
        let lines = |item: &Item| item.words[2..2 + item.words[0] as usize].to_vec();
        let named = of(FINALIZATION).any(|item| lines(item).iter().any(on_brought));
        self.note(Edge::Named, named);
        let [before, after] = [before, after].map(Book::tally);
        let full = after.departures.len() == DEPARTURES && before.departures.len() < DEPARTURES;
        self.note(Edge::Departures, full);
        let full = after.owed.len() == ENTRIES && before.owed.len() < ENTRIES;
        self.note(Edge::Entries, full);
        let full = after.counts.len() == COUNTS && before.counts.len() < COUNTS;
        self.note(Edge::Counts, full);
        let eighth = after.owed.iter().any(|(transaction, entry)| {
            let had = before.owed.get(transaction).map_or(0, |e| e.absences);
            had < ABSENCES && entry.absences == ABSENCES
        });
        self.note(Edge::Absences, eighth);
    }

    fn broken(&mut self, numbers: &[u64], status: u64) {
        let Some((count, rest)) = numbers.split_first() else {
            self.note(Edge::NoWord, true);
            return;
        };
        if *count > ITEMS {
            self.note(
                Edge::Over,
                *count == ITEMS + 1 && rest.len() >= 2 * (*count as usize),
            );
            return;
        }
        let count = *count as usize;
        let Some((kinds, rest)) = rest.split_at_checked(count) else {
            return;
        };
        let Some((lengths, rest)) = rest.split_at_checked(count) else {
            return;
        };
        let total: u128 = lengths.iter().map(|length| u128::from(*length)).sum();
        let many = rest.len() as u128;
        if status == 10 {
            self.note(Edge::Kind0, kinds.contains(&0));
            self.note(Edge::Kind6, kinds.contains(&6));
            self.note(Edge::Both, total != many);
        } else {
            self.note(Edge::Short, total == many + 1);
            self.note(Edge::Long, total + 1 == many);
            self.note(Edge::Wrapping, total != many && total as u64 == many as u64);
        }
    }

    /// The calls of its items one by one, as far as they lead.
    fn refused(&mut self, numbers: &[u64], before: &Book) {
        let mut book = before.clone();
        let mut refusals = Vec::new();
        for item in in_order(written(numbers)) {
            let (call, numbers) = item.call();
            let given = Given {
                numbers: &numbers,
                lent: &mut [],
                said: &mut Vec::new(),
            };
            if let Err(number) = call.make(&mut book, given) {
                if refusals.is_empty() {
                    let changed = contents(&book) != contents(before);
                    self.note(Edge::Middle, changed);
                    self.note(Edge::Ninth, number == 7);
                    self.note(Edge::Uncounted, number == 14);
                    let opened = before.tally().counts.len() < COUNTS;
                    self.note(Edge::Opened, number == 14 && opened);
                }
                refusals.push(number);
            }
        }
        // A repeated one is refused by its last making, and may not be by its first.
        let other = |number: &u64| Some(number) != refusals.first();
        self.note(Edge::Two, refusals.iter().any(other));
    }
}

/// A `dump` of the ledger.
pub fn contents(book: &Book) -> Vec<u64> {
    let mut said = Vec::new();
    let given = Given {
        numbers: &[],
        lent: &mut [],
        said: &mut said,
    };
    let dump = reference::call_named(b"dump").expect("a call of the table");
    dump.make(&mut book.clone(), given).expect("never refused");
    said
}

impl fmt::Display for Bundles {
    fn fmt(&self, f: &mut fmt::Formatter) -> fmt::Result {
        write!(f, "bundles of so many items          accepted    refused")?;
        for (name, [accepted, refused]) in self.by_size() {
            write!(f, "\n{name:<32} {accepted:>9}  {refused:>9}")?;
        }
        write!(
            f,
            "\naccepted ones with items of the kind      items in all"
        )?;
        for (kind, [bundles, items]) in KINDS.iter().zip(self.kinds) {
            write!(f, "\n{:<32} {bundles:>9}  {items:>16}", kind.call)?;
        }
        write!(f, "\nwith an answer above 0:")?;
        for (name, count) in self.by_answer() {
            write!(f, "\n{name:<32} {count:>9}")?;
        }
        write!(f, "\nand with:")?;
        for (edge, name) in EDGES {
            write!(f, "\n{name:<34} {:>7}", self.with_edge(edge))?;
        }
        Ok(())
    }
}
