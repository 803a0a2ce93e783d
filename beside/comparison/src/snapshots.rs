//! Counts how snapshots went: what those held that were restored, why others were not, and how much room they were written into.

use std::fmt;

use reference::{
    ABSENCES, BREAKS, Book, Broken, CORE, COUNTS, DEPARTURES, DESTINATIONS, EDGES, ENTRIES, Entry,
    FAULTS, Fault, LAST_SHARD, ROUTES, Reply, Snapshot,
};

use crate::image::snapshot_of;

/// What a restored ledger may hold.
#[derive(Clone, Copy)]
pub enum Held {
    Nothing,
    Whole,
    Leg,
    Core,
    Remainder,
    Abandoned,
    Executed,
    Named,
    Absent,
    Marked,
    Returned,
    Unstamped,
    Stamped,
    Routes,
    CoreShards,
    Edges,
    Destinations,
    Absences,
    Marks,
    Entries,
    Departures,
    NoCount,
    Counts,
    Count,
    Sum,
}

pub const HELD: [(Held, &str); 25] = [
    (Held::Nothing, "no entry and no departure"),
    (Held::Whole, "a whole entry"),
    (Held::Leg, "a leg"),
    (Held::Core, "a core"),
    (Held::Remainder, "a remainder"),
    (Held::Abandoned, "certificate 1"),
    (Held::Executed, "certificate 2"),
    (Held::Named, "an entry named by a record"),
    (Held::Absent, "absences"),
    (Held::Marked, "marks"),
    (Held::Returned, "a mark that was a return"),
    (Held::Unstamped, "a departure without stamp"),
    (Held::Stamped, "a departure with a stamp"),
    (Held::Routes, "8 routes"),
    (Held::CoreShards, "8 core shards"),
    (Held::Edges, "8 edges"),
    (Held::Destinations, "4 destinations"),
    (Held::Absences, "8 absences"),
    (Held::Marks, "8 marks"),
    (Held::Entries, "48 entries"),
    (Held::Departures, "32 departures"),
    (Held::NoCount, "entries and no count"),
    (Held::Counts, "32 counts"),
    (Held::Count, "a count of 2^64 - 1"),
    (Held::Sum, "lower counts, more in all"),
];

/// How a snapshot was written, or not.
#[derive(Clone, Copy)]
pub enum Room {
    Exact,
    More,
    OneShort,
    Shorter,
}

pub const ROOMS: [(Room, &str); 4] = [
    (Room::Exact, "written, exact room"),
    (Room::More, "written, more room"),
    (Room::OneShort, "9, one word short"),
    (Room::Shorter, "9, shorter"),
];

impl Room {
    /// How a list that needs so many words was written.
    pub fn of(reply: &Reply, needed: usize) -> Self {
        let room = reply.lent.len();
        match reply.status {
            0 if room == needed => Self::Exact,
            0 => Self::More,
            _ if room + 1 == needed => Self::OneShort,
            _ => Self::Shorter,
        }
    }
}

#[derive(Default)]
pub struct Snapshots {
    rooms: [u64; ROOMS.len()],
    held: [u64; HELD.len()],
    broken: [u64; BREAKS.len()],
    /// Broken, with a local that is no shard besides.
    both: u64,
    faults: Faults,
}

/// In how many a fault was found, and in how many alone.
struct Faults([[u64; 2]; FAULTS.len()]);

impl Default for Faults {
    fn default() -> Self {
        Self([[0; 2]; FAULTS.len()])
    }
}

impl Snapshots {
    /// Count a `snapshot` of the ledger.
    pub fn wrote(&mut self, reply: &Reply, book: &Book) {
        let room = Room::of(reply, snapshot_of(book).len());
        self.rooms[room as usize] += 1;
    }

    /// Count a `restore` of these words.
    pub fn read(&mut self, words: &[u64], reply: &Reply) {
        match Snapshot::cut(words) {
            Ok(snapshot) if reply.status == 0 => self.accepted(&snapshot),
            Ok(snapshot) => {
                let faults = snapshot.faults();
                for fault in &faults {
                    let counts = &mut self.faults.0[*fault as usize];
                    counts[0] += 1;
                    counts[1] += u64::from(faults.len() == 1);
                }
            }
            Err(broken) => {
                self.broken[broken as usize] += 1;
                let local = words.first();
                let no_shard = local.is_some_and(|local| !(1..=LAST_SHARD).contains(local));
                self.both += u64::from(no_shard);
            }
        }
    }

    pub fn with_room(&self, room: Room) -> u64 {
        self.rooms[room as usize]
    }

    /// How many that were restored held it.
    pub fn holding(&self, what: Held) -> u64 {
        self.held[what as usize]
    }

    /// How many were refused where the form broke so.
    pub fn broken(&self, how: Broken) -> u64 {
        self.broken[how as usize]
    }

    pub fn broken_without_local(&self) -> u64 {
        self.both
    }

    /// How many whole ones were refused for it, and for it alone.
    pub fn refused(&self, fault: Fault) -> [u64; 2] {
        self.faults.0[fault as usize]
    }

    fn accepted(&mut self, snapshot: &Snapshot) {
        let (entries, departures) = (&snapshot.entries, &snapshot.departures);
        let some = |is: fn(&Entry) -> bool| entries.iter().any(is);
        let counts = snapshot.counts.iter().map(|pair| pair[1]);
        let stamped = |code| departures.iter().any(|one| one[2] == code);
        let held = HELD.map(|(what, _)| match what {
            Held::Nothing => entries.is_empty() && departures.is_empty(),
            Held::Whole => some(|one| one.standing[0] == 0),
            Held::Leg => some(|one| one.standing[0] == 1),
            Held::Core => some(|one| one.standing[0] == 2),
            Held::Remainder => some(|one| one.standing[0] == 3),
            Held::Abandoned => some(|one| one.standing[1] == 1),
            Held::Executed => some(|one| one.standing[1] == 2),
            Held::Named => some(|one| one.standing[2] > 0),
            Held::Absent => some(|one| !one.absences.is_empty()),
            Held::Marked => some(|one| !one.marks.is_empty()),
            Held::Returned => some(|one| one.standing[3] > 0),
            Held::Unstamped => stamped(0),
            Held::Stamped => stamped(1),
            Held::Routes => some(|one| one.routes.len() as u64 == ROUTES),
            Held::CoreShards => some(|one| one.core.len() as u64 == CORE),
            Held::Edges => some(|one| one.ids.len() as u64 == EDGES),
            Held::Destinations => {
                some(|one| one.to.iter().any(|to| to.len() as u64 == DESTINATIONS))
            }
            Held::Absences => some(|one| one.absences.len() == 2 * ABSENCES),
            Held::Marks => some(|one| one.marks.len() as u64 == EDGES),
            Held::Entries => entries.len() == ENTRIES,
            Held::Departures => departures.len() == DEPARTURES,
            Held::NoCount => snapshot.counts.is_empty() && !entries.is_empty(),
            Held::Counts => snapshot.counts.len() == COUNTS,
            Held::Count => counts.clone().any(|count| count == u64::MAX),
            Held::Sum => {
                let total: u128 = counts.clone().map(u128::from).sum();
                total > u128::from(u64::MAX) && counts.clone().all(|count| count < u64::MAX)
            }
        });
        for (count, held) in self.held.iter_mut().zip(held) {
            *count += u64::from(held);
        }
    }
}

impl fmt::Display for Snapshots {
    fn fmt(&self, f: &mut fmt::Formatter) -> fmt::Result {
        write!(f, "snapshots:")?;
        for (room, name) in ROOMS {
            write!(f, "\n{name:<34} {:>7}", self.with_room(room))?;
        }
        write!(f, "\nrestored with:")?;
        for (what, name) in HELD {
            write!(f, "\n{name:<34} {:>7}", self.holding(what))?;
        }
        write!(f, "\n12, the reading stops where:")?;
        for (how, name) in BREAKS {
            write!(f, "\n{name:<34} {:>7}", self.broken(how))?;
        }
        let name = "12, and local is no shard";
        write!(f, "\n{name:<34} {:>7}", self.both)?;
        write!(f, "\n13, with:                               alone")?;
        for (fault, name) in FAULTS {
            let [all, alone] = self.refused(fault);
            write!(f, "\n{name:<30} {all:>7} {alone:>7}")?;
        }
        Ok(())
    }
}
