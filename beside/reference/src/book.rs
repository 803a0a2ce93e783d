//! The Rust's ledger with what the paper holds beside it: the spans, and for each shard whose records rebuilt entries how many.

use std::collections::{BTreeMap, BTreeSet};

use hyperscale_types::{ShardId, Spans, TxHash};

use crate::ledger::{Ledger, inside};
use crate::refusals::{COUNTS, LIST_SHORT, NO_SHARD_TO_MAKE, NO_SPAN, is_shard, is_span, unless};

pub struct Book {
    pub(crate) ledger: Ledger,
    pub(crate) spans: Spans,
    pub(crate) counts: Counts,
}

/// By shard, how many entries its records rebuilt; never 0.
pub(crate) type Counts = BTreeMap<u64, u64>;

/// What stands owed, for whoever steers or counts calls: never read to answer one.
pub struct Tally {
    pub owed: BTreeMap<u64, Standing>,
    /// The index: record and transaction.
    pub pairs: Vec<(u64, u64)>,
    /// The shards of the departures on file.
    pub departures: BTreeSet<u64>,
    /// The shards that have a count of rebuilt entries, each with it.
    pub counts: BTreeMap<u64, u64>,
    /// The spans of rules 2 and 5: L and V.
    pub leg_entry: u64,
    pub validity: u64,
}

/// What the rules of prune ask of an entry.
pub struct Standing {
    pub at: u64,
    pub end: u64,
    pub part: u64,
    pub certificate: u64,
    pub absences: usize,
    pub named: bool,
    pub remote: Remote,
}

/// What of the ledger decides which departures an entry holds, and which of them counts over a route.
pub struct Held {
    pub local: u64,
    pub entries: Vec<Holder>,
    pub departures: Vec<Leaving>,
}

/// An entry, with the shard whose record names it or 0.
pub struct Holder {
    pub transaction: u64,
    pub anchor: u64,
    pub named: u64,
    pub routes: Vec<u64>,
}

/// A departure; until is its stamp, if it has one.
pub struct Leaving {
    pub shard: u64,
    pub cut: u64,
    pub until: Option<u64>,
}

/// How the departures lie over an entry's remote routes.
pub enum Remote {
    /// No route is remote.
    Nowhere,
    /// Some remote route has no departure over it.
    Open,
    /// Every remote route has one.
    Departed,
}

impl Default for Book {
    /// The ledger that a refused making hands back.
    fn default() -> Self {
        Self {
            ledger: Ledger::new(ShardId(1)),
            spans: Spans::ONES,
            counts: Counts::new(),
        }
    }
}

impl Clone for Book {
    fn clone(&self) -> Self {
        Self {
            ledger: inside::copy(&self.ledger),
            spans: self.spans,
            counts: self.counts.clone(),
        }
    }
}

impl Book {
    pub(crate) fn make(numbers: &[u64]) -> Result<Self, u64> {
        unless(is_shard(numbers[0]), NO_SHARD_TO_MAKE)?;
        unless(numbers[1..4].iter().all(|span| is_span(*span)), NO_SPAN)?;
        let spans = Spans {
            validity: numbers[1],
            core: numbers[2],
            leg_entry: numbers[3],
        };
        Ok(Self {
            ledger: Ledger::new(ShardId(numbers[0])),
            spans,
            counts: Counts::new(),
        })
    }

    pub fn owes(&self, transaction: u64) -> bool {
        self.ledger.contains(TxHash(transaction))
    }

    pub fn tally(&self) -> Tally {
        Tally {
            owed: inside::owed(&self.ledger),
            pairs: inside::pairs(&self.ledger),
            departures: inside::departed(&self.ledger),
            counts: self.counts.clone(),
            leg_entry: self.spans.leg_entry,
            validity: self.spans.validity,
        }
    }

    pub fn held(&self) -> Held {
        inside::held(&self.ledger)
    }

    /// Whether entries that this shard's record rebuilds can be counted: it has a count, or there is room for one more.
    pub(crate) fn can_count(&self, shard: u64) -> bool {
        self.counts.contains_key(&shard) || self.counts.len() < COUNTS
    }

    /// Count what a record of the shard rebuilt. One that rebuilt nothing opens no count.
    pub(crate) fn count(&mut self, shard: u64, rebuilt: u64) {
        if rebuilt > 0 {
            let count = self.counts.entry(shard).or_default();
            *count = count.saturating_add(rebuilt);
        }
    }

    /// How many entries were rebuilt in all, as far as a word can say.
    pub(crate) fn rebuilt(&self) -> u64 {
        self.counts
            .values()
            .fold(0, |sum, count| sum.saturating_add(*count))
    }
}

/// Write the items to the front of the lent list, or refuse and leave both alone.
pub(crate) fn write<const WORDS: usize>(
    items: impl ExactSizeIterator<Item = [u64; WORDS]>,
    lent: &mut [u64],
) -> Result<u64, u64> {
    let count = items.len();
    let places = lent.get_mut(..count * WORDS).ok_or(LIST_SHORT)?;
    for (place, item) in places.chunks_exact_mut(WORDS).zip(items) {
        place.copy_from_slice(&item);
    }
    Ok(count as u64)
}
