//! Reading a snapshot: cut by the sizes in it, held to what a writer can have written (`faults`), then the Rust's own ledger.

use hyperscale_types::{ShardId, Spans};

use crate::book::Book;
use crate::faults::{Fault, faults};
use crate::ledger::inside;
use crate::refusals::{
    ABSENCES, BAD_FORM, CORE, COUNTS, DEPARTURES, DESTINATIONS, EDGES, ENTRIES, NEVER_WRITTEN,
    ROUTES, unless,
};

/// Why words have not the form of a snapshot: where a reading from the front stops.
#[derive(Clone, Copy, Debug, PartialEq)]
pub enum Broken {
    Early,
    Late,
    Counts,
    Entries,
    Departures,
    Routes,
    Core,
    Edges,
    Destinations,
    Absences,
    Marks,
    Length,
}

pub const BREAKS: [(Broken, &str); 12] = [
    (Broken::Early, "words end early"),
    (Broken::Late, "words go on"),
    (Broken::Counts, "counts over 32"),
    (Broken::Entries, "entries over 48"),
    (Broken::Departures, "departures over 32"),
    (Broken::Routes, "routes over 8"),
    (Broken::Core, "core over 8"),
    (Broken::Edges, "edges over 8"),
    (Broken::Destinations, "destinations over 4"),
    (Broken::Absences, "absences over 8"),
    (Broken::Marks, "marks over 8"),
    (Broken::Length, "a length that is another"),
];

/// A snapshot's words, cut by its sizes.
pub struct Snapshot<'a> {
    /// Local, V, C, L.
    pub head: &'a [u64],
    /// Shard and count each.
    pub counts: Vec<&'a [u64]>,
    pub entries: Vec<Entry<'a>>,
    /// Shard, cut, stamped, until each.
    pub departures: Vec<&'a [u64]>,
}

pub struct Entry<'a> {
    /// All of its words from r to the last destination.
    pub admission: &'a [u64],
    /// Transaction, at, end, anchor, charge, decomposed.
    pub figures: &'a [u64],
    pub routes: &'a [u64],
    pub core: &'a [u64],
    pub ids: &'a [u64],
    pub from: &'a [u64],
    pub kinds: &'a [u64],
    pub to: Vec<&'a [u64]>,
    /// Part, certificate, naming shard, returned.
    pub standing: [u64; 4],
    /// Shard and key each.
    pub absences: &'a [u64],
    pub marks: &'a [u64],
}

impl<'a> Snapshot<'a> {
    pub fn cut(words: &'a [u64]) -> Result<Self, Broken> {
        let mut rest = Rest(words);
        let head = rest.take(4)?;
        let k = rest.size(COUNTS as u64, Broken::Counts)?;
        let counts = rest.take(2 * k)?.chunks_exact(2).collect();
        let n = rest.size(ENTRIES as u64, Broken::Entries)?;
        let m = rest.size(DEPARTURES as u64, Broken::Departures)?;
        let mut entries = Vec::new();
        for length in rest.take(n)? {
            let from = rest.0.len();
            entries.push(rest.entry()?);
            let taken = (from - rest.0.len()) as u64;
            rest.only_if(*length == taken, Broken::Length)?;
        }
        let departures = rest.take(4 * m)?.chunks_exact(4).collect();
        rest.only_if(rest.0.is_empty(), Broken::Late)?;
        Ok(Self {
            head,
            counts,
            entries,
            departures,
        })
    }

    /// Whatever of it is never written.
    pub fn faults(&self) -> Vec<Fault> {
        faults(self)
    }

    /// The ledger of which a writer writes this: one without faults.
    fn book(&self) -> Book {
        Book {
            ledger: inside::restored(ShardId(self.head[0]), &self.entries, &self.departures),
            spans: Spans {
                validity: self.head[1],
                core: self.head[2],
                leg_entry: self.head[3],
            },
            counts: self.counts.iter().map(|pair| (pair[0], pair[1])).collect(),
        }
    }
}

pub(crate) fn restored(words: &[u64]) -> Result<Book, u64> {
    let snapshot = Snapshot::cut(words).map_err(|_| BAD_FORM)?;
    unless(snapshot.faults().is_empty(), NEVER_WRITTEN)?;
    Ok(snapshot.book())
}

/// What has not been cut yet. A size is held to its limit before anything is cut by it, so that nothing can wrap.
struct Rest<'a>(&'a [u64]);

impl<'a> Rest<'a> {
    fn take(&mut self, count: u64) -> Result<&'a [u64], Broken> {
        let (taken, rest) = self
            .0
            .split_at_checked(count as usize)
            .ok_or(Broken::Early)?;
        self.0 = rest;
        Ok(taken)
    }

    fn only_if(&self, holds: bool, broken: Broken) -> Result<(), Broken> {
        if holds { Ok(()) } else { Err(broken) }
    }

    fn size(&mut self, most: u64, over: Broken) -> Result<u64, Broken> {
        let size = self.take(1)?[0];
        self.only_if(size <= most, over)?;
        Ok(size)
    }

    fn entry(&mut self) -> Result<Entry<'a>, Broken> {
        let all = self.0;
        let r = self.size(ROUTES, Broken::Routes)?;
        let c = self.size(CORE, Broken::Core)?;
        let e = self.size(EDGES, Broken::Edges)?;
        let figures = self.take(6)?;
        let [routes, core] = [self.take(r)?, self.take(c)?];
        let [ids, from, kinds] = [self.take(e)?, self.take(e)?, self.take(e)?];
        let mut to = Vec::new();
        for size in self.take(e)? {
            self.only_if(*size <= DESTINATIONS, Broken::Destinations)?;
            to.push(self.take(*size)?);
        }
        let admission = &all[..all.len() - self.0.len()];
        let standing = self.take(4)?;
        let absences = self.size(ABSENCES as u64, Broken::Absences)?;
        let absences = self.take(2 * absences)?;
        let marks = self.size(EDGES, Broken::Marks)?;
        Ok(Entry {
            admission,
            figures,
            routes,
            core,
            ids,
            from,
            kinds,
            to,
            standing: [0, 1, 2, 3].map(|place: usize| standing[place]),
            absences,
            marks: self.take(marks)?,
        })
    }
}
