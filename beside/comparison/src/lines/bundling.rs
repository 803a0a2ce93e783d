//! Draws bundles, of the same lines as scripts have: their items lean on the tables' edges and on each other, and some bundles are spoilt.

use reference::{ABSENCES, COUNTS, DEPARTURES, ENTRIES, ITEMS, KINDS, MOST_NUMBERS};

use super::Maker;
use crate::breaches::spoil;
use crate::items::{ABSENCE, ADMISSION, FINALIZATION, Item, RECORD, TERMINAL, joined};

/// Shares in percent: bundles that are spoilt, and of the others those that lean on a table.
const SPOILT: u64 = 25;
const LEANING: u64 = 40;

/// More shards, more transactions and fewer transactions than this let a bundle fill a table; and about so many counts the counts.
const MANY_SHARDS: usize = DEPARTURES;
const MANY_TRANSACTIONS: u64 = 48;
const FEW_TRANSACTIONS: u64 = 3;
const MANY_COUNTS: usize = COUNTS - 8;

impl Maker<'_> {
    pub(super) fn bundle(&mut self) -> Vec<u64> {
        let turn = self.turn.take();
        let over = std::mem::take(&mut self.over);
        let mut items = self.leaning();
        if items.is_empty() {
            items = self.any(turn);
        }
        self.about_each_other(&mut items);
        self.order(&mut items);
        while joined(&items).len() > MOST_NUMBERS {
            items.pop();
        }
        if over || self.random.percent(SPOILT) {
            self.spoilt(items)
        } else {
            items.truncate(ITEMS as usize);
            joined(&items)
        }
    }

    /// Items of any kinds, those that the profile favours more often.
    fn any(&mut self, turn: Option<usize>) -> Vec<Item> {
        let count = match self.random.below(24) {
            0 => 0,
            1..5 => 1,
            5..15 => self.random.between(2, 6),
            15..20 => self.random.between(7, 20),
            20 => self.random.between(21, ITEMS),
            _ => self.random.pick(&[ITEMS - 1, ITEMS, ITEMS + 1]),
        };
        let kinds = self.kinds();
        (0..count as usize)
            .map(|place| {
                self.turn = turn.map(|turn| 6 * turn + place);
                let kind = self.random.pick(&kinds);
                self.item(kind)
            })
            .collect()
    }

    fn kinds(&self) -> Vec<u64> {
        let often = |kind: u64| {
            let name = KINDS[kind as usize - 1].call;
            let favoured = self.profile.favour.iter();
            2 + favoured.filter(|favoured| **favoured == name).count()
        };
        (TERMINAL..=ABSENCE)
            .flat_map(|kind| vec![kind; often(kind)])
            .collect()
    }

    fn item(&mut self, kind: u64) -> Item {
        let words = match kind {
            TERMINAL => self.terminal(),
            RECORD => self.abandonment(),
            FINALIZATION => self.finalization(),
            ADMISSION => self.admission(),
            _ => self.absence(),
        };
        Item::of(kind, words)
    }

    /// Items that fill a table to one below its limit, to it, or one over; none where the pools do not have so many.
    fn leaning(&mut self) -> Vec<Item> {
        if !self.random.percent(LEANING) {
            Vec::new()
        } else if self.tally.counts.len() >= MANY_COUNTS {
            self.records()
        } else if self.pools.shards.len() > MANY_SHARDS {
            self.terminals()
        } else if self.profile.transactions > MANY_TRANSACTIONS {
            self.newcomers()
        } else if self.profile.transactions < FEW_TRANSACTIONS {
            self.absences()
        } else {
            Vec::new()
        }
    }

    /// How many of something that there is room for, but for one.
    fn about(&mut self, room: usize) -> usize {
        self.random.pick(&[room.saturating_sub(1), room, room + 1])
    }

    fn terminals(&mut self) -> Vec<Item> {
        let filed = &self.tally.departures;
        let new = self.pools.shards.iter().filter(|s| !filed.contains(s));
        let new: Vec<u64> = new.copied().collect();
        let count = self.about(DEPARTURES.saturating_sub(filed.len()));
        let new = new.into_iter().take(count);
        new.map(|shard| {
            let mut item = self.item(TERMINAL);
            item.words[0] = shard;
            item
        })
        .collect()
    }

    /// Newcomers for the room that there is, or for more where a finalization may release some first.
    fn newcomers(&mut self) -> Vec<Item> {
        let owed = &self.tally.owed;
        let pool = &self.pools.transactions;
        let new: Vec<u64> = pool
            .iter()
            .copied()
            .filter(|t| !owed.contains_key(t))
            .collect();
        let mut items = Vec::new();
        let mut room = ENTRIES.saturating_sub(owed.len());
        if self.random.percent(40) {
            let leaving: Vec<u64> = owed.keys().copied().take(2).collect();
            let n = leaving.len() as u64;
            let codes = vec![1; leaving.len()];
            room += leaving.len();
            let words = [vec![n, n], leaving.clone(), codes, leaving].concat();
            items.push(Item::of(FINALIZATION, words));
        }
        let count = self.about(room);
        for transaction in new.into_iter().take(count) {
            let mut item = if self.random.percent(80) {
                self.item(ADMISSION)
            } else {
                Item::of(RECORD, self.one_rebuilt())
            };
            item.words[3] = transaction;
            items.push(item);
        }
        items
    }

    /// Records of shards without a count, for the counts that there is room for, one fewer or one more; of one that has a count; and one that
    /// only names.
    fn records(&mut self) -> Vec<Item> {
        let counts = &self.tally.counts;
        let shards = self.pools.shards.iter().copied();
        let others: Vec<u64> = shards.filter(|s| !counts.contains_key(s)).collect();
        let counted = counts.keys().next_back().copied();
        let count = self.about(COUNTS.saturating_sub(counts.len()));
        let owed = self.owed();
        let pool = self.pools.transactions.iter().copied();
        let mut new = pool.filter(|t| !self.tally.owed.contains_key(t));
        let mut pairs: Vec<(u64, Option<u64>)> = others
            .iter()
            .map(|shard| (*shard, new.next()))
            .take(count)
            .collect();
        pairs.extend(counted.map(|shard| (shard, new.next())));
        pairs.extend(others.last().map(|shard| (*shard, owed)));
        let record = |(shard, transaction): (u64, Option<u64>)| {
            let mut words = self.one_rebuilt();
            words[1] = shard;
            words[3] = transaction?;
            Some(Item::of(RECORD, words))
        };
        pairs.into_iter().filter_map(record).collect()
    }

    /// A record of one group without routes.
    fn one_rebuilt(&mut self) -> Vec<u64> {
        let mut words = vec![1, self.shard(), 0];
        words.extend(self.figures());
        words
    }

    /// Absences on one transaction, with keys that it hardly has yet.
    fn absences(&mut self) -> Vec<Item> {
        let transaction = self.transaction();
        let most = ABSENCES as u64;
        let count = self.random.pick(&[1, 2, most - 1, most, most + 1]);
        let first = self.random.word() % (1 << 32);
        (0..count)
            .map(|step| Item::of(ABSENCE, vec![transaction, self.shard(), first + step]))
            .collect()
    }

    /// Absences on transactions that an admission among the items brings, and finalizations that name one.
    fn about_each_other(&mut self, items: &mut Vec<Item>) {
        let brought = items.iter().filter(|item| item.kind == ADMISSION);
        let brought: Vec<u64> = brought.map(|item| item.words[3]).collect();
        for transaction in brought.into_iter().take(3) {
            if self.random.percent(40) {
                let words = vec![transaction, self.shard(), self.random.below(4)];
                items.insert(0, Item::of(ABSENCE, words));
            }
            if self.random.percent(25) {
                let code = self.random.pick(&[1, 1, 2, 3]);
                let words = vec![1, 1, transaction, code, transaction];
                items.insert(0, Item::of(FINALIZATION, words));
            }
        }
    }

    /// Mostly mixed; at times by falling kind, or in the order in which they are done.
    fn order(&mut self, items: &mut [Item]) {
        match self.random.below(10) {
            0 => items.sort_by_key(|item| item.kind),
            1 => items.sort_by_key(|item| std::cmp::Reverse(item.kind)),
            _ => shuffle(self.random, items),
        }
    }

    fn spoilt(&mut self, mut items: Vec<Item>) -> Vec<u64> {
        if self.random.percent(50) && !items.is_empty() {
            items.truncate(ITEMS as usize);
            let place = self.random.below(items.len() as u64) as usize;
            if self.random.percent(30) {
                self.over = true;
                items[place] = self.item(items[place].kind);
            } else {
                spoil(self.random, &mut items[place].words, true);
            }
            return joined(&items);
        }
        let mut words = joined(&items);
        self.break_up(&mut words);
        if self.random.percent(20) {
            self.break_up(&mut words);
        }
        words
    }

    /// Break what a bundle says of its items: their number, a kind, the lengths, or where the words end.
    fn break_up(&mut self, words: &mut Vec<u64>) {
        let arrays = words.len().saturating_sub(1) / 2;
        let count = words.first().map_or(0, |count| arrays.min(*count as usize));
        let random = &mut *self.random;
        match random.below(12) {
            0..3 if count > 0 => {
                let place = 1 + random.below(count as u64) as usize;
                words[place] = random.pick(&[0, 6, 6, 7, u64::MAX]);
            }
            3..5 if count > 0 => {
                let place = 1 + count + random.below(count as u64) as usize;
                let length = words[place];
                let any = random.word();
                words[place] = random.pick(&[
                    length.wrapping_add(1),
                    length.wrapping_sub(1),
                    any,
                    u64::MAX,
                ]);
            }
            // Lengths that are made up, but only by wrapping.
            5..7 if count > 1 => {
                let [one, other] = [1 + count, 2 * count];
                let by = random.pick(&[1 << 63, u64::MAX, words[other].wrapping_add(1)]);
                words[one] = words[one].wrapping_add(by);
                words[other] = words[other].wrapping_sub(by);
            }
            7 => words.push(random.below(10)),
            8 => {
                words.pop();
            }
            9 => words.truncate(random.below(words.len() as u64 + 1) as usize),
            _ => {
                if let Some(count) = words.first_mut() {
                    let one_off = [count.wrapping_add(1), count.saturating_sub(1)];
                    let any = [0, ITEMS + 1, 1 << 63, u64::MAX];
                    *count = random.pick(&[&one_off[..], &any].concat());
                }
            }
        }
    }
}

pub fn shuffle<T>(random: &mut crate::random::Random, items: &mut [T]) {
    for last in (1..items.len()).rev() {
        items.swap(last, random.below(last as u64 + 1) as usize);
    }
}
