//! The numbers of each call, drawn from the pools and steered by what the ledger holds.

mod bundling;
mod growing;
mod restoring;

pub use bundling::shuffle;

use std::collections::BTreeSet;

use reference::{
    Book, CORE, COUNTS, DEEPEST, DESTINATIONS, EDGES, ENTRIES, GROUPS, LAST_SHARD, LAST_TIME,
    ROUTES, Tally,
};

use crate::pools::Pools;
use crate::profiles::Profile;
use crate::random::Random;

const LEG: u64 = 1;
const REMAINDER: u64 = 3;

/// Draws the numbers of one line.
pub struct Maker<'a> {
    pub random: &'a mut Random,
    pub pools: &'a Pools,
    pub profile: &'a Profile,
    pub book: &'a Book,
    pub tally: &'a Tally,
    /// Snapshots that the script took.
    pub kept: &'a [Vec<u64>],
    /// While a table is filled: which of the pool's transactions and shards is due.
    pub turn: Option<usize>,
    /// Whether sizes may go one past their limits, the words being as many as they say.
    pub over: bool,
}

type Draw<'a> = fn(&mut Maker<'a>) -> Vec<u64>;

impl<'a> Maker<'a> {
    /// Each call with its usual weight.
    pub const DRAWS: [(&'static str, u64, Draw<'a>); 39] = [
        ("new", 1, Self::making),
        ("restore", 20, Self::snapshot),
        ("register_committed", 30, Self::admission),
        ("record_absence", 6, Self::absence),
        ("certify", 10, Self::certificate),
        ("record_abandonment", 6, Self::abandonment),
        ("settled", 8, Self::mark),
        ("returned", 4, Self::mark),
        ("closes", 4, Self::nothing),
        ("fated", 2, Self::one_transaction),
        ("release_resolved", 6, Self::finalization),
        ("forget", 2, Self::one_transaction),
        ("record_terminal", 8, Self::terminal),
        ("stamp_terminal", 4, Self::stamp),
        ("prune", 6, Self::clock),
        ("bundle", 8, Self::bundle),
        ("questions", 4, Self::nothing),
        ("open_at", 2, Self::question_at),
        ("answers", 4, Self::question_read),
        ("past_deadline", 4, Self::clock),
        ("issuers_of", 3, Self::one_id),
        ("claimants", 3, Self::claim),
        ("counterparts", 4, Self::depth),
        ("unstamped_departures", 2, Self::nothing),
        ("reach", 2, Self::one_transaction),
        ("abandonment_answers", 2, Self::one_transaction),
        ("is_covered", 2, Self::one_transaction),
        ("departed", 2, Self::one_transaction),
        ("executed", 2, Self::one_transaction),
        ("reaches_beyond", 2, Self::one_transaction),
        ("issued_by", 2, Self::mark),
        ("local", 1, Self::nothing),
        ("rebuilt", 1, Self::nothing),
        ("rebuilt_by_shard", 3, Self::nothing),
        ("leaf_for_route", 4, Self::route_and_marks),
        ("leaves", 3, Self::marks),
        ("counterparts_by_tree", 4, Self::transaction_and_marks),
        ("snapshot", 3, Self::nothing),
        ("dump", 3, Self::nothing),
    ];

    fn transaction(&mut self) -> u64 {
        let owed = if self.random.percent(70) {
            self.owed()
        } else {
            None
        };
        owed.unwrap_or_else(|| self.random.pick(&self.pools.transactions))
    }

    /// Any that is owed.
    fn owed(&mut self) -> Option<u64> {
        let last = self.tally.owed.len().checked_sub(1)?;
        let place = self.random.between(0, last as u64) as usize;
        self.tally.owed.keys().copied().nth(place)
    }

    fn shard(&mut self) -> u64 {
        self.random.pick(&self.pools.shards)
    }

    /// A shard that departs: the one due, or mostly one that owns a remote route.
    fn leaver(&mut self) -> u64 {
        match self.turn {
            Some(turn) => self.pools.shards[turn % self.pools.shards.len()],
            None if self.random.percent(60) => self.random.pick(&self.pools.owners),
            None => self.shard(),
        }
    }

    /// A transaction to take in: the one due, or mostly any of the pool.
    fn newcomer(&mut self) -> u64 {
        match self.turn {
            Some(turn) => self.pools.transactions[turn % self.pools.transactions.len()],
            None if self.random.percent(75) => self.random.pick(&self.pools.transactions),
            None => self.transaction(),
        }
    }

    fn time(&mut self) -> u64 {
        match self.random.below(20) {
            0 => self.random.pick(&[0, LAST_TIME]),
            1..4 => self.random.pick(&self.pools.far),
            _ => self.random.pick(&self.pools.near),
        }
    }

    /// A size: mostly small, at its limit where the script is wide.
    fn size(&mut self, limit: u64) -> u64 {
        if self.over && self.random.percent(25) {
            limit + 1
        } else if self.random.percent(self.profile.wide) {
            limit
        } else {
            self.random.below(4).min(limit)
        }
    }

    /// Up to `limit` shards, strictly ascending, as far as the pool has so many.
    fn shards(&mut self, limit: u64) -> BTreeSet<u64> {
        let size = self.size(limit).min(self.pools.shards.len() as u64) as usize;
        let mut found = BTreeSet::new();
        while found.len() < size {
            found.insert(self.shard());
        }
        found
    }

    /// How many groups or lines: few, and now and then all that fit.
    fn groups(&mut self, often: u64) -> u64 {
        if self.over && self.random.percent(25) {
            GROUPS + 1
        } else if self.random.percent(often) {
            self.random.pick(&[GROUPS - 1, GROUPS])
        } else {
            self.random.below(5)
        }
    }

    fn nothing(&mut self) -> Vec<u64> {
        Vec::new()
    }

    fn making(&mut self) -> Vec<u64> {
        let mut numbers = vec![self.pools.local];
        numbers.extend(self.pools.spans);
        numbers
    }

    /// Transaction, at, end, anchor and charge.
    fn figures(&mut self) -> [u64; 5] {
        let transaction = self.newcomer();
        let charge = self.random.below(1000);
        let charge = if self.random.percent(5) {
            u64::MAX - charge
        } else {
            charge
        };
        // An early anchor leaves room for cuts above it.
        let anchor = if self.random.percent(40) {
            self.pools.near[0]
        } else {
            self.time()
        };
        [transaction, self.time(), self.time(), anchor, charge]
    }

    fn routes(&mut self) -> Vec<u64> {
        (0..self.size(ROUTES))
            .map(|_| self.random.pick(&self.pools.routes))
            .collect()
    }

    fn admission(&mut self) -> Vec<u64> {
        let figures = self.figures();
        let routes = self.routes();
        let mut core = self.shards(CORE);
        if (core.len() as u64) < CORE && self.random.percent(50) {
            core.insert(self.pools.local);
        }
        let edges = self.size(EDGES);
        let to: Vec<BTreeSet<u64>> = (0..edges).map(|_| self.shards(DESTINATIONS)).collect();
        let decomposed = u64::from(self.random.percent(self.profile.decomposed));
        let mut numbers = vec![routes.len() as u64, core.len() as u64, edges];
        numbers.extend(figures);
        numbers.push(decomposed);
        numbers.extend(routes);
        numbers.extend(core);
        numbers.extend(self.crossings(edges));
        numbers.extend((0..edges).map(|_| self.random.below(2)));
        numbers.extend(to.iter().map(|to| to.len() as u64));
        numbers.extend(to.into_iter().flatten());
        numbers
    }

    /// The ids of the edges, then where each starts.
    fn crossings(&mut self, edges: u64) -> Vec<u64> {
        if self.random.percent(self.profile.own) {
            let first = self.random.pick(&self.pools.ids);
            let ids = (0..edges).map(|step| first + step);
            return ids.chain((0..edges).map(|_| self.pools.local)).collect();
        }
        let mut numbers: Vec<u64> = (0..edges)
            .map(|_| self.random.pick(&self.pools.ids))
            .collect();
        numbers.extend((0..edges).map(|_| self.from()));
        numbers
    }

    fn from(&mut self) -> u64 {
        if self.random.percent(65) {
            self.pools.local
        } else {
            self.shard()
        }
    }

    /// The shard of an abandonment record: the one due; where about as many have a count as may, half the time one that has none.
    fn recorder(&mut self) -> u64 {
        if let Some(turn) = self.turn {
            return self.pools.shards[turn % self.pools.shards.len()];
        }
        let counts = &self.tally.counts;
        let shards = self.pools.shards.iter().copied();
        let others: Vec<u64> = shards.filter(|s| !counts.contains_key(s)).collect();
        let full = counts.len() + 1 >= COUNTS && !others.is_empty();
        if full && self.random.percent(50) {
            self.random.pick(&others)
        } else {
            self.shard()
        }
    }

    fn abandonment(&mut self) -> Vec<u64> {
        let brought = self.brought();
        let routes: Vec<Vec<u64>> = brought.iter().map(|_| self.routes()).collect();
        let mut numbers = vec![brought.len() as u64, self.recorder()];
        numbers.extend(routes.iter().map(|routes| routes.len() as u64));
        for transaction in brought {
            let [_, figures @ ..] = self.figures();
            numbers.push(transaction);
            numbers.extend(figures);
        }
        numbers.extend(routes.into_iter().flatten());
        if self.all_counts() && self.random.percent(5) {
            self.ahead_of_counts(&mut numbers);
        }
        numbers
    }

    fn all_counts(&self) -> bool {
        self.tally.counts.len() == COUNTS
    }

    /// The transactions of a record's groups. Where no shard more can be counted, at times only such as are owed, or such as are not about as
    /// many as there is room for.
    fn brought(&mut self) -> Vec<u64> {
        let many = self.profile.transactions > 40;
        let groups = self.groups(if many { 10 } else { 1 });
        // The record whose turn it is brings something.
        let groups = groups.max(u64::from(self.turn.is_some()));
        match self.random.below(10) {
            0..2 if self.all_counts() => (0..groups).filter_map(|_| self.owed()).collect(),
            2 if self.all_counts() && many => self.filling(),
            _ => self.newcomers_to(groups),
        }
    }

    /// One transaction in several groups asks for one place only.
    fn newcomers_to(&mut self, groups: u64) -> Vec<u64> {
        let mut found: Vec<u64> = Vec::new();
        for _ in 0..groups {
            let newcomer = self.newcomer();
            let again = found.last().filter(|_| self.random.percent(20));
            found.push(again.copied().unwrap_or(newcomer));
        }
        found
    }

    /// Transactions that are not owed, as many as there is room for or one more.
    fn filling(&mut self) -> Vec<u64> {
        let owed = &self.tally.owed;
        let room = ENTRIES.saturating_sub(owed.len()) + self.random.below(2) as usize;
        let pool = self.pools.transactions.iter().copied();
        let new = pool.filter(|t| !owed.contains_key(t));
        new.take(room.min(GROUPS as usize)).collect()
    }

    /// Another breach of a record, which is told before its shard's count is asked for: a word too many, a time or a shard that is none.
    fn ahead_of_counts(&mut self, numbers: &mut Vec<u64>) {
        let groups = numbers[0] as usize;
        match self.random.below(4) {
            0 => numbers.push(0),
            1 | 2 if groups > 0 => {
                let time = groups + 3 + self.random.below(3) as usize;
                numbers[time] = LAST_TIME + 1;
            }
            _ => numbers[1] = self.random.pick(&[0, LAST_SHARD + 1]),
        }
    }

    fn finalization(&mut self) -> Vec<u64> {
        let lines = self.groups(self.profile.wide / 4);
        let named: Vec<u64> = (0..lines).map(|_| self.transaction()).collect();
        let decisions: Vec<u64> = named
            .iter()
            .map(|_| self.random.pick(&[1, 1, 1, 2, 3]))
            .collect();
        let mut deciding: Vec<u64> = named
            .iter()
            .copied()
            .filter(|_| self.random.percent(60))
            .collect();
        let more = if self.random.percent(20) {
            self.groups(10)
        } else {
            0
        };
        let room = (GROUPS + u64::from(self.over)).saturating_sub(deciding.len() as u64);
        deciding.extend((0..more.min(room)).map(|_| self.transaction()));
        let mut numbers = vec![lines, deciding.len() as u64];
        numbers.extend(named);
        numbers.extend(decisions);
        numbers.extend(deciding);
        numbers
    }

    /// A cell's key as it would be asked for, or any small word.
    fn absence(&mut self) -> Vec<u64> {
        let (transaction, shard) = (self.transaction(), self.shard());
        let cell = transaction.wrapping_add(self.time()).wrapping_add(shard);
        let small = self.random.below(8);
        vec![
            transaction,
            shard,
            self.random.pick(&[cell, small, small, u64::MAX]),
        ]
    }

    fn certificate(&mut self) -> Vec<u64> {
        vec![self.transaction(), self.random.pick(&[0, 1, 1, 2, 2])]
    }

    /// A pair of the index, mostly one that can be marked; else a key that may be too large, or
    /// another's.
    fn mark(&mut self) -> Vec<u64> {
        if !self.tally.pairs.is_empty() && self.random.percent(85) {
            let first = self.random.pick(&self.tally.pairs);
            let second = self.random.pick(&self.tally.pairs);
            let markable = |pair: &(u64, u64)| {
                self.tally
                    .owed
                    .get(&pair.1)
                    .is_some_and(|entry| matches!(entry.part, LEG | REMAINDER))
            };
            let (record, transaction) = if markable(&first) { first } else { second };
            return vec![record, transaction];
        }
        let id = self.random.pick(&self.pools.ids);
        vec![self.random.pick(&[id, id % (1 << 32)]), self.transaction()]
    }

    fn claim(&mut self) -> Vec<u64> {
        let mut numbers = self.mark();
        numbers.swap(0, 1);
        numbers
    }

    fn one_transaction(&mut self) -> Vec<u64> {
        vec![self.transaction()]
    }

    fn one_id(&mut self) -> Vec<u64> {
        vec![self.random.pick(&self.pools.ids)]
    }

    /// `until` is any word where `stamped` is 0, since nobody may read it.
    fn terminal(&mut self) -> Vec<u64> {
        let stamped = self.random.below(2);
        let until = self.time();
        let until = if stamped == 0 && self.random.percent(30) {
            self.random.word()
        } else {
            until
        };
        vec![self.leaver(), self.time(), stamped, until]
    }

    fn stamp(&mut self) -> Vec<u64> {
        vec![self.leaver(), self.time()]
    }

    fn clock(&mut self) -> Vec<u64> {
        let far = self.random.percent(30);
        vec![if far {
            self.random.pick(&self.pools.far)
        } else {
            self.time()
        }]
    }

    fn question(&mut self) -> Vec<u64> {
        let mut numbers = self.absence();
        numbers.push(self.time());
        numbers.push(self.time());
        numbers
    }

    fn question_at(&mut self) -> Vec<u64> {
        let mut numbers = self.question();
        numbers.push(self.time());
        numbers
    }

    fn question_read(&mut self) -> Vec<u64> {
        let mut numbers = self.question();
        let edge = (numbers[3] + self.pools.spans[1] - self.random.below(2)).min(LAST_TIME);
        let time = self.time();
        numbers.push(self.random.pick(&[edge, time]));
        numbers.push(self.random.pick(&[0, 0, 0, 1]));
        numbers
    }

    fn depth(&mut self) -> Vec<u64> {
        let any = self.random.between(0, DEEPEST);
        vec![
            self.transaction(),
            self.random.pick(&[0, 1, 2, 3, 31, DEEPEST, any]),
        ]
    }
}
