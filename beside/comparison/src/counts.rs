//! Counts how rebuilt entries were counted by shard: what records opened and added to, which were refused, and how the counts were told.

use std::collections::{BTreeMap, BTreeSet};
use std::fmt;

use reference::{Book, COUNTS, LAST_SHARD, Reply};

use crate::apart::rebuilt;
use crate::snapshots::{ROOMS, Room};

/// What came of an abandonment record.
#[derive(Clone, Copy)]
pub enum Record {
    Opens,
    Last,
    Adds,
    AddsAtLast,
    Within,
    ToEnd,
    AtEnd,
    NamesOnly,
    NoGroup,
    Refused,
    Named,
    Both,
    Malformed,
    Late,
    NoShard,
}

pub const RECORDS: [(Record, &str); 15] = [
    (Record::Opens, "opens a count"),
    (Record::Last, "opens the thirty-second"),
    (Record::Adds, "adds to a count"),
    (Record::AddsAtLast, "adds to one of 32"),
    (Record::Within, "of these ranked among others"),
    (Record::ToEnd, "brings a count to its end"),
    (Record::AtEnd, "rebuilds with a count at its end"),
    (Record::NamesOnly, "32, and another only names"),
    (Record::NoGroup, "32, and another has no group"),
    (Record::Refused, "14"),
    (Record::Named, "14, it names one besides"),
    (Record::Both, "6, and 14 but for that"),
    (Record::Malformed, "5, and 32 counts of others"),
    (Record::Late, "3, and 14 but for that"),
    (Record::NoShard, "4, and 32 counts"),
];

/// What `rebuilt` said.
#[derive(Clone, Copy)]
pub enum Sum {
    None,
    OfSeveral,
    AtEnd,
    Over,
}

pub const SUMS: [(Sum, &str); 4] = [
    (Sum::None, "0"),
    (Sum::OfSeveral, "a sum of several"),
    (Sum::AtEnd, "2^64 - 1, by one at its end"),
    (Sum::Over, "2^64 - 1, by lower counts"),
];

#[derive(Default)]
pub struct Counts {
    records: [u64; RECORDS.len()],
    sums: [u64; SUMS.len()],
    rooms: [u64; ROOMS.len()],
}

impl Counts {
    pub fn with(&self, what: Record) -> u64 {
        self.records[what as usize]
    }

    pub fn summed(&self, how: Sum) -> u64 {
        self.sums[how as usize]
    }

    /// How often the counts of a ledger that has some were listed into such room.
    pub fn with_room(&self, room: Room) -> u64 {
        self.rooms[room as usize]
    }

    /// Count an abandonment record.
    pub fn record(&mut self, numbers: &[u64], reply: &Reply, before: &Book) {
        let [groups, shard] = [0, 1].map(|place| numbers.get(place).copied().unwrap_or(0));
        let stand = Stand::of(before, shard);
        let brought: BTreeSet<u64> = rebuilt(numbers).into_iter().collect();
        let new = brought.iter().filter(|t| !before.owes(**t)).count();
        let is_shard = (1..=LAST_SHARD).contains(&shard);
        match reply.status {
            0 => self.accepted(groups, reply.said[0], &stand),
            14 => {
                self.note(Record::Refused, true);
                self.note(Record::Named, new < brought.len());
            }
            6 => self.note(Record::Both, stand.is_full()),
            5 => self.note(Record::Malformed, stand.is_full() && is_shard),
            3 => self.note(Record::Late, stand.is_full() && is_shard && new > 0),
            _ => self.note(Record::NoShard, stand.counts.len() == COUNTS),
        }
    }

    fn accepted(&mut self, groups: u64, rebuilt: u64, stand: &Stand) {
        if rebuilt == 0 {
            self.note(Record::NamesOnly, stand.is_full() && groups > 0);
            self.note(Record::NoGroup, stand.is_full() && groups == 0);
            return;
        }
        let all = stand.counts.len();
        let Some(count) = stand.own else {
            self.note(Record::Opens, true);
            self.note(Record::Last, all + 1 == COUNTS);
            return;
        };
        self.note(Record::Adds, true);
        self.note(Record::AddsAtLast, all == COUNTS);
        self.note(Record::Within, stand.is_within());
        self.note(
            Record::ToEnd,
            count < u64::MAX && count.checked_add(rebuilt).is_none_or(|sum| sum == u64::MAX),
        );
        self.note(Record::AtEnd, count == u64::MAX);
    }

    fn note(&mut self, what: Record, came: bool) {
        self.records[what as usize] += u64::from(came);
    }

    /// Count a `rebuilt`.
    pub fn sum(&mut self, reply: &Reply, book: &Book) {
        let counts = book.tally().counts;
        let how = match reply.said[0] {
            0 => Sum::None,
            u64::MAX if counts.values().any(|count| *count == u64::MAX) => Sum::AtEnd,
            u64::MAX => Sum::Over,
            _ if counts.len() > 1 => Sum::OfSeveral,
            _ => return,
        };
        self.sums[how as usize] += 1;
    }

    /// Count a `rebuilt_by_shard`.
    pub fn list(&mut self, reply: &Reply, book: &Book) {
        let needed = 2 * book.tally().counts.len();
        if needed > 0 {
            let room = Room::of(reply, needed);
            self.rooms[room as usize] += 1;
        }
    }
}

/// What counts stand when a record of a shard comes.
struct Stand {
    counts: BTreeMap<u64, u64>,
    shard: u64,
    /// The shard's own.
    own: Option<u64>,
}

impl Stand {
    fn of(book: &Book, shard: u64) -> Self {
        let counts = book.tally().counts;
        let own = counts.get(&shard).copied();
        Self { counts, shard, own }
    }

    /// Others have all counts that there may be.
    fn is_full(&self) -> bool {
        self.counts.len() == COUNTS && self.own.is_none()
    }

    /// Its shard has lower ones and higher ones beside it.
    fn is_within(&self) -> bool {
        let mut ends = [self.counts.keys().next(), self.counts.keys().next_back()].into_iter();
        ends.all(|end| end != Some(&self.shard))
    }
}

impl fmt::Display for Counts {
    fn fmt(&self, f: &mut fmt::Formatter) -> fmt::Result {
        write!(f, "abandonment records, by the counts of their shards:")?;
        for (what, name) in RECORDS {
            write!(f, "\n{name:<34} {:>7}", self.with(what))?;
        }
        write!(f, "\nrebuilt said:")?;
        for (how, name) in SUMS {
            write!(f, "\n{name:<34} {:>7}", self.summed(how))?;
        }
        write!(f, "\ncounts listed, where there are any:")?;
        for (room, name) in ROOMS {
            write!(f, "\n{name:<34} {:>7}", self.with_room(room))?;
        }
        Ok(())
    }
}
