//! Random ledgers that calls reach, and random damage to their words. A seed names one for good.

use super::plain::{Departure, Edge, Entry, Part, Plain};

pub struct Random(u64);

impl Random {
    pub fn new(seed: u64) -> Random {
        Random(seed)
    }

    pub fn next(&mut self) -> u64 {
        self.0 = self.0.wrapping_add(0x9e37_79b9_7f4a_7c15);
        let mut z = self.0;
        z = (z ^ (z >> 30)).wrapping_mul(0xbf58_476d_1ce4_e5b9);
        z = (z ^ (z >> 27)).wrapping_mul(0x94d0_49bb_1331_11eb);
        z ^ (z >> 31)
    }

    pub fn below(&mut self, n: u64) -> u64 {
        self.next() % n
    }

    pub fn one_in(&mut self, n: u64) -> bool {
        self.below(n) == 0
    }

    pub fn of(&mut self, items: &[u64]) -> u64 {
        items[self.below(items.len() as u64) as usize]
    }

    fn many<T>(&mut self, limit: u64, mut item: impl FnMut(&mut Random) -> T) -> Vec<T> {
        let n = if self.one_in(6) {
            limit
        } else {
            self.below(limit + 1)
        };
        (0..n).map(|_| item(self)).collect()
    }

    fn rising<T: Ord>(&mut self, limit: u64, item: impl FnMut(&mut Random) -> T) -> Vec<T> {
        let mut items = self.many(limit, item);
        items.sort();
        items.dedup();
        items
    }

    /// Close together, so that shards, cuts and clocks meet; now and then at the ends.
    pub fn shard(&mut self) -> u64 {
        if self.one_in(20) {
            self.of(&[1, (1 << 33) - 1, 1 << 32])
        } else {
            1 + self.below(16)
        }
    }

    pub fn time(&mut self) -> u64 {
        if self.one_in(20) {
            self.of(&[0, (1 << 48) - 1])
        } else {
            900 + self.below(400)
        }
    }

    fn span(&mut self) -> u64 {
        if self.one_in(10) {
            self.of(&[1, 1 << 40])
        } else {
            1 + self.below(300)
        }
    }

    fn word(&mut self) -> u64 {
        if self.one_in(8) {
            self.of(&[0, u64::MAX])
        } else {
            self.next()
        }
    }

    fn route(&mut self) -> u64 {
        let edge = self.below(16) << 60;
        if self.one_in(3) {
            edge.wrapping_sub(1)
        } else {
            edge
        }
    }

    fn anchor(&mut self) -> u64 {
        if self.one_in(10) { 0 } else { self.below(12) }
    }

    fn edge(&mut self, local: u64) -> Edge {
        Edge {
            id: self.below(12) + (self.below(2) << 32),
            from: if self.one_in(2) { local } else { self.shard() },
            kind: self.below(2),
            to: self.rising(4, Random::shard),
        }
    }

    /// An entry such as calls leave.
    pub fn entry(&mut self, local: u64, transaction: u64) -> Entry {
        let mut part =
            [Part::Whole, Part::Leg, Part::Core, Part::Remainder][self.below(4) as usize];
        let mut core = self.rising(8, Random::shard);
        let mut edges = self.many(8, |r| r.edge(local));
        match part {
            Part::Whole => (core, edges) = (vec![], vec![]),
            Part::Leg => core.retain(|s| *s != local),
            Part::Core | Part::Remainder => {
                core.truncate(7);
                core.push(local);
                core.sort_unstable();
                core.dedup();
            }
        }
        let owing = edges.iter().any(|e| e.from == local && e.kind == 1);
        if part == Part::Remainder && !owing {
            part = Part::Core;
        }
        let settles = matches!(part, Part::Leg | Part::Remainder);
        let mut entry = Entry {
            transaction,
            at: self.time(),
            end: self.time(),
            anchor: self.anchor(),
            charge: self.word(),
            decomposed: u64::from(part != Part::Whole),
            routes: self.many(8, Random::route),
            core,
            edges,
            part,
            certificate: self.below(3),
            named: if self.one_in(2) { self.shard() } else { 0 },
            returned: 0,
            absences: vec![],
            marks: vec![],
        };
        if self.one_in(5) {
            entry.absences = self.rising(8, |r| (r.shard(), r.word()));
        }
        if settles {
            entry.marks = entry.issued(local);
            entry.marks.sort_unstable();
            entry.marks.dedup();
            let keep = self.below(9) as usize;
            entry.marks.truncate(keep);
            entry.returned = u64::from(!entry.marks.is_empty() && self.one_in(2));
        }
        entry
    }

    fn departure(&mut self, shard: u64) -> Departure {
        let stamped = self.below(2);
        Departure {
            shard,
            cut: if self.one_in(20) {
                self.time()
            } else {
                self.below(14)
            },
            stamped,
            until: if stamped == 0 { 0 } else { self.time() },
        }
    }

    /// Mostly few, now and then as many as there may be.
    fn counts(&mut self) -> Vec<(u64, u64)> {
        let most = if self.one_in(8) { 32 } else { 3 };
        let mut shards = self.rising(most, |r| 1 + r.below(1 << 20));
        if self.one_in(8) {
            shards.pop();
            shards.push((1 << 33) - 1);
        }
        shards
            .into_iter()
            .map(|shard| (shard, self.word().max(1)))
            .collect()
    }

    pub fn ledger(&mut self) -> Plain {
        let local = self.shard();
        let transactions = self.rising(48, |r| r.word());
        let shards = self.rising(32, |r| {
            if r.one_in(3) {
                1 + r.below(40)
            } else {
                r.shard()
            }
        });
        Plain {
            local,
            v: self.span(),
            c: self.span(),
            l: self.span(),
            counts: self.counts(),
            entries: transactions
                .into_iter()
                .map(|t| self.entry(local, t))
                .collect(),
            departures: shards.into_iter().map(|s| self.departure(s)).collect(),
        }
    }

    /// The ledger with the longest snapshot.
    pub fn full() -> Plain {
        let local = 1;
        let edges = |t: u64| {
            (0..8)
                .map(|i| Edge {
                    id: 8 * t + i,
                    from: local,
                    kind: 1,
                    to: vec![1, 2, 3, 4],
                })
                .collect()
        };
        let entry = |t: u64| Entry {
            transaction: t,
            at: 1000,
            end: 1000,
            anchor: 1,
            charge: t,
            decomposed: 1,
            routes: (0..8).map(|i| i << 61).collect(),
            core: (1..9).collect(),
            edges: edges(t),
            part: Part::Remainder,
            certificate: 2,
            named: 5,
            returned: 1,
            absences: (0..8).map(|i| (3, i)).collect(),
            marks: (0..8).map(|i| 8 * t + i).collect(),
        };
        let departure = |shard| Departure {
            shard,
            cut: 7,
            stamped: 1,
            until: 2000,
        };
        Plain {
            local,
            v: 100,
            c: 50,
            l: 200,
            counts: (1..33).map(|shard| (shard, u64::MAX)).collect(),
            entries: (0..48).map(entry).collect(),
            departures: (1..33).map(departure).collect(),
        }
    }

    /// The words with something wrong, or at least other: a word changed, put in or taken out, or two exchanged.
    pub fn damage(&mut self, words: &mut Vec<u64>) {
        let n = words.len() as u64;
        let at = if self.one_in(3) {
            self.below(n.min(30))
        } else {
            self.below(n)
        } as usize;
        match self.below(8) {
            0 => {
                words.remove(at);
            }
            1 => words.insert(at, self.below(3)),
            2 => words.swap(at, (at + 1) % n as usize),
            3 => words[at] = words[at].wrapping_add(1),
            4 => words[at] = words[at].wrapping_sub(1),
            5 => words[at] = self.of(&[0, 1, 2, 3, 4, 5, 8, 9, 32, 33, 48, 49]),
            6 => {
                words[at] = self.of(&[
                    1 << 33,
                    1 << 40,
                    (1 << 40) + 1,
                    1 << 48,
                    u64::MAX,
                    1 << 61,
                    1 << 63,
                ])
            }
            _ => words.truncate(at),
        }
    }

    /// The ledger with something that no call leaves, or at least with something else, in words that keep a snapshot's form.
    pub fn spoil(&mut self, ledger: &mut Plain) {
        let n = ledger.entries.len() as u64;
        if n == 0 || self.one_in(5) {
            return self.spoil_frame(ledger);
        }
        let other = self.below(n) as usize;
        let shard = self.of(&[0, 1, ledger.local, 16, (1 << 33) - 1, 1 << 33, u64::MAX]);
        let time = self.of(&[0, (1 << 48) - 1, 1 << 48, u64::MAX]);
        let code = self.below(4);
        let at = self.below(n) as usize;
        let transaction = ledger.entries[other].transaction;
        let issued = ledger.entries[at].issued(ledger.local);
        let e = &mut ledger.entries[at];
        match self.below(16) {
            0 => e.transaction = transaction,
            1 => e.at = time,
            2 => e.end = time,
            3 => e.anchor = time,
            4 => e.decomposed = code,
            5 => e.part = [Part::Whole, Part::Leg, Part::Core, Part::Remainder][code as usize],
            6 => e.certificate = code,
            7 => e.named = shard,
            8 => e.returned = code,
            9 => e.core.iter_mut().take(1).for_each(|s| *s = shard),
            10 => e.core.retain(|s| *s != ledger.local),
            11 => e.edges.iter_mut().take(1).for_each(|g| g.from = shard),
            12 => e.edges.iter_mut().for_each(|g| g.kind = code),
            13 => e
                .edges
                .iter_mut()
                .flat_map(|g| g.to.first_mut())
                .for_each(|s| *s = shard),
            14 => e.marks = issued.into_iter().chain([self.below(12)]).take(8).collect(),
            _ => e.absences = vec![(shard, 7), (self.shard(), 7)],
        }
    }

    fn spoil_frame(&mut self, ledger: &mut Plain) {
        let span = self.of(&[0, 1, 1 << 40, (1 << 40) + 1]);
        let shard = self.of(&[0, 1, (1 << 33) - 1, 1 << 33]);
        let time = self.of(&[0, 1, (1 << 48) - 1, 1 << 48]);
        let code = self.below(3);
        let d = ledger.departures.first_mut();
        if self.one_in(3) {
            return self.spoil_counts(&mut ledger.counts);
        }
        match (self.below(8), d) {
            (0, _) => ledger.local = shard,
            (1, _) => ledger.v = span,
            (2, _) => ledger.c = span,
            (3, _) => ledger.l = span,
            (4, Some(d)) => d.shard = shard,
            (5, Some(d)) => d.cut = time,
            (6, Some(d)) => d.stamped = code,
            (7, Some(d)) => d.until = time,
            _ => ledger.counts = self.counts(),
        }
    }

    /// Another shard or count, two exchanged, one said twice, or one more.
    fn spoil_counts(&mut self, counts: &mut Vec<(u64, u64)>) {
        let shard = self.of(&[0, 1, (1 << 33) - 1, 1 << 33, u64::MAX]);
        let n = counts.len();
        if n == 0 {
            return counts.push((shard, self.below(2)));
        }
        let at = self.below(n as u64) as usize;
        match self.below(5) {
            0 => counts[at].0 = shard,
            1 => counts[at].1 = self.of(&[0, 0, 1, u64::MAX]),
            2 => counts.swap(at, (at + 1) % n),
            3 => counts[at].0 = counts[(at + 1) % n].0,
            _ => counts.insert(at, counts[at]),
        }
    }
}
