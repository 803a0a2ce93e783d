//! Counts in which dumps each limit of the paper was reached. A dump is compared word for word, so both sides stood there.

use std::fmt;

use reference::{ABSENCES, CORE, COUNTS, DEPARTURES, DESTINATIONS, EDGES, ENTRIES, ROUTES};

/// What has a limit, in the order of the table.
#[derive(Clone, Copy)]
enum Kind {
    Counts,
    Entries,
    Departures,
    Pairs,
    Routes,
    Core,
    Edges,
    Destinations,
    Absences,
    Marks,
}

/// An entry has at most a mark and a pair of the index for each edge.
const LIMITS: [(&str, u64); 10] = [
    ("counts", COUNTS as u64),
    ("entries", ENTRIES as u64),
    ("departures", DEPARTURES as u64),
    ("index pairs", ENTRIES as u64 * EDGES),
    ("routes", ROUTES),
    ("core shards", CORE),
    ("edges", EDGES),
    ("destinations", DESTINATIONS),
    ("absences", ABSENCES as u64),
    ("marks", EDGES),
];

/// For each limit in how many dumps it was reached, and the most that any held.
#[derive(Default)]
pub struct Limits([(u64, u64); LIMITS.len()]);

impl Limits {
    pub fn count(&mut self, dump: &[u64]) {
        let most = Walk::over(dump).most;
        for ((reached, top), (held, (_, limit))) in self.0.iter_mut().zip(most.iter().zip(LIMITS)) {
            *reached += u64::from(*held == limit);
            *top = (*top).max(*held);
        }
    }

    pub fn reached(&self) -> impl Iterator<Item = (&'static str, u64)> {
        LIMITS
            .iter()
            .zip(&self.0)
            .map(|((name, _), (reached, _))| (*name, *reached))
    }
}

/// The words of a dump still to come, and the most of each kind so far.
struct Walk<'a> {
    words: &'a [u64],
    most: [u64; LIMITS.len()],
}

impl<'a> Walk<'a> {
    fn over(dump: &'a [u64]) -> Self {
        let mut walk = Self {
            words: dump,
            most: [0; LIMITS.len()],
        };
        walk.take(4);
        let counts = walk.next();
        walk.note(Kind::Counts, counts);
        walk.take(2 * counts);
        let [entries, departures, pairs] = [0; 3].map(|_: u64| walk.next());
        walk.note(Kind::Entries, entries);
        walk.note(Kind::Departures, departures);
        walk.note(Kind::Pairs, pairs);
        for _ in 0..entries {
            walk.entry();
        }
        walk
    }

    fn entry(&mut self) {
        let [routes, core, edges] = [0; 3].map(|_: u64| self.next());
        self.note(Kind::Routes, routes);
        self.note(Kind::Core, core);
        self.note(Kind::Edges, edges);
        self.take(6 + routes + core + 3 * edges);
        let sizes = self.take(edges).to_vec();
        for size in &sizes {
            self.note(Kind::Destinations, *size);
        }
        self.take(sizes.iter().sum::<u64>() + 4);
        let absences = self.next();
        self.note(Kind::Absences, absences);
        self.take(2 * absences);
        let marks = self.next();
        self.note(Kind::Marks, marks);
        self.take(marks);
    }

    fn note(&mut self, kind: Kind, held: u64) {
        let most = &mut self.most[kind as usize];
        *most = held.max(*most);
    }

    fn next(&mut self) -> u64 {
        self.take(1)[0]
    }

    fn take(&mut self, count: u64) -> &'a [u64] {
        let (taken, rest) = self.words.split_at(count as usize);
        self.words = rest;
        taken
    }
}

impl fmt::Display for Limits {
    fn fmt(&self, f: &mut fmt::Formatter) -> fmt::Result {
        write!(
            f,
            "limits, the most in a dump and in how many dumps it was reached:"
        )?;
        for ((name, limit), (reached, top)) in LIMITS.iter().zip(&self.0) {
            write!(f, "\n{name:<14} {top:>3} of {limit:>3}  {reached:>8}")?;
        }
        Ok(())
    }
}
