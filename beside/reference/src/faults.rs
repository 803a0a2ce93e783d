//! What a snapshot of whole form may say that is never written of a ledger that calls can reach. Each fault is told by itself, for whoever counts
//! them; a reading refuses where there is any.

use crate::refusals::{LAST_TIME, is_shard, is_span};
use crate::snapshot::{Entry, Snapshot};

const WHOLE: u64 = 0;
const LEG: u64 = 1;
const CORE: u64 = 2;
const REMAINDER: u64 = 3;

const RECORD_KEYS: u64 = 1 << 32;

#[derive(Clone, Copy, Debug, PartialEq)]
pub enum Fault {
    Local,
    Span,
    CountShard,
    CountOrder,
    CountNone,
    EntryOrder,
    Time,
    CoreShard,
    CoreOrder,
    From,
    Kind,
    ToShard,
    ToOrder,
    Decomposed,
    Part,
    WholeCore,
    WholeEdges,
    WholeMarks,
    WholeReturned,
    LegInCore,
    CoreWithout,
    RemainderWithout,
    NothingOwed,
    CoreMarks,
    CoreReturned,
    Certificate,
    Named,
    Returned,
    ReturnedBare,
    AbsenceShard,
    AbsenceOrder,
    MarkOrder,
    MarkForeign,
    DepartureShard,
    DepartureOrder,
    Cut,
    Stamped,
    Until,
    UntilBare,
}

pub const FAULTS: [(Fault, &str); 39] = [
    (Fault::Local, "local no shard"),
    (Fault::Span, "a span no span"),
    (Fault::CountShard, "count of no shard"),
    (Fault::CountOrder, "counts not rising"),
    (Fault::CountNone, "a count of 0"),
    (Fault::EntryOrder, "entries not rising"),
    (Fault::Time, "at, end or anchor no time"),
    (Fault::CoreShard, "core: no shard"),
    (Fault::CoreOrder, "core: not rising"),
    (Fault::From, "an edge from no shard"),
    (Fault::Kind, "a kind over 1"),
    (Fault::ToShard, "destinations: no shard"),
    (Fault::ToOrder, "destinations: not rising"),
    (Fault::Decomposed, "decomposed not as the part"),
    (Fault::Part, "part over 3"),
    (Fault::WholeCore, "whole with a core"),
    (Fault::WholeEdges, "whole with edges"),
    (Fault::WholeMarks, "whole with marks"),
    (Fault::WholeReturned, "whole and returned"),
    (Fault::LegInCore, "leg, local in its core"),
    (Fault::CoreWithout, "core, local not in it"),
    (Fault::RemainderWithout, "remainder, local not in core"),
    (Fault::NothingOwed, "remainder without owed edge"),
    (Fault::CoreMarks, "core with marks"),
    (Fault::CoreReturned, "core and returned"),
    (Fault::Certificate, "certificate over 2"),
    (Fault::Named, "named by no shard"),
    (Fault::Returned, "returned over 1"),
    (Fault::ReturnedBare, "returned without a mark"),
    (Fault::AbsenceShard, "absences: no shard"),
    (Fault::AbsenceOrder, "absences: not rising"),
    (Fault::MarkOrder, "marks: not rising"),
    (Fault::MarkForeign, "marks: one never issued"),
    (Fault::DepartureShard, "departure of no shard"),
    (Fault::DepartureOrder, "departures not rising"),
    (Fault::Cut, "cut no time"),
    (Fault::Stamped, "stamped over 1"),
    (Fault::Until, "until no time"),
    (Fault::UntilBare, "until without a stamp"),
];

pub(crate) fn faults(snapshot: &Snapshot) -> Vec<Fault> {
    let mut found = Found(Vec::new());
    let head = snapshot.head;
    found.note(Fault::Local, !is_shard(head[0]));
    found.note(Fault::Span, !head[1..4].iter().all(|span| is_span(*span)));
    found.counts(&snapshot.counts);
    for entry in &snapshot.entries {
        found.words(entry);
        found.standing(entry);
        found.part(entry, head[0]);
    }
    let entries = snapshot.entries.iter();
    let transactions = entries.map(|entry| entry.figures[0]);
    found.note(Fault::EntryOrder, !rises(transactions));
    for departure in &snapshot.departures {
        found.departure(departure);
    }
    let shards = snapshot.departures.iter().map(|departure| departure[0]);
    found.note(Fault::DepartureOrder, !rises(shards));
    found.0
}

fn rises<T: PartialOrd>(items: impl Iterator<Item = T>) -> bool {
    items.is_sorted_by(|low, high| low < high)
}

fn all_shards(words: &[u64]) -> bool {
    words.iter().all(|word| is_shard(*word))
}

fn is_time(word: u64) -> bool {
    word <= LAST_TIME
}

/// Each fault once.
struct Found(Vec<Fault>);

impl Found {
    fn note(&mut self, fault: Fault, wrong: bool) {
        if wrong && !self.0.contains(&fault) {
            self.0.push(fault);
        }
    }

    /// What no records that rebuild are counted as.
    fn counts(&mut self, counts: &[&[u64]]) {
        let shards = counts.iter().map(|pair| pair[0]);
        let no_shard = shards.clone().any(|shard| !is_shard(shard));
        self.note(Fault::CountShard, no_shard);
        self.note(Fault::CountOrder, !rises(shards));
        self.note(Fault::CountNone, counts.iter().any(|pair| pair[1] == 0));
    }

    /// What no admission or record takes in.
    fn words(&mut self, entry: &Entry) {
        let times = &entry.figures[1..4];
        self.note(Fault::Time, !times.iter().all(|time| is_time(*time)));
        self.note(Fault::CoreShard, !all_shards(entry.core));
        self.note(Fault::CoreOrder, !rises(entry.core.iter()));
        self.note(Fault::From, !all_shards(entry.from));
        self.note(Fault::Kind, entry.kinds.iter().any(|kind| *kind > 1));
        self.note(Fault::ToShard, !entry.to.iter().all(|to| all_shards(to)));
        self.note(Fault::ToOrder, !entry.to.iter().all(|to| rises(to.iter())));
    }

    /// What no entry comes to, whatever its part.
    fn standing(&mut self, entry: &Entry) {
        let [_, certificate, named, returned] = entry.standing;
        self.note(Fault::Certificate, certificate > 2);
        self.note(Fault::Named, named != 0 && !is_shard(named));
        self.note(Fault::Returned, returned > 1);
        let absences = entry.absences.chunks_exact(2);
        let no_shard = absences.clone().any(|pair| !is_shard(pair[0]));
        self.note(Fault::AbsenceShard, no_shard);
        self.note(Fault::AbsenceOrder, !rises(absences));
        self.note(Fault::MarkOrder, !rises(entry.marks.iter()));
    }

    /// What does not go with the part.
    fn part(&mut self, entry: &Entry, local: u64) {
        let [part, _, _, returned] = entry.standing;
        let in_core = entry.core.contains(&local);
        let marked = !entry.marks.is_empty();
        let returned = returned > 0;
        let divided = u64::from(part != WHOLE);
        self.note(Fault::Decomposed, entry.figures[5] != divided);
        match part {
            WHOLE => {
                self.note(Fault::WholeCore, !entry.core.is_empty());
                self.note(Fault::WholeEdges, !entry.ids.is_empty());
                self.note(Fault::WholeMarks, marked);
                self.note(Fault::WholeReturned, returned);
            }
            LEG => {
                self.note(Fault::LegInCore, in_core);
                self.settlement(entry, local);
            }
            CORE => {
                self.note(Fault::CoreWithout, !in_core);
                self.note(Fault::CoreMarks, marked);
                self.note(Fault::CoreReturned, returned);
            }
            REMAINDER => {
                let mut edges = entry.from.iter().zip(entry.kinds);
                let owes = edges.any(|(from, kind)| *from == local && *kind == 1);
                self.note(Fault::RemainderWithout, !in_core);
                self.note(Fault::NothingOwed, !owes);
                self.settlement(entry, local);
            }
            _ => self.note(Fault::Part, true),
        }
    }

    /// The marks of a leg or remainder are records that local issued, and one of them came back where any is noted to have.
    fn settlement(&mut self, entry: &Entry, local: u64) {
        let edges = entry.ids.iter().zip(entry.from);
        let issued: Vec<u64> = edges
            .filter(|(_, from)| **from == local)
            .map(|(id, _)| id % RECORD_KEYS)
            .collect();
        let foreign = entry.marks.iter().any(|mark| !issued.contains(mark));
        self.note(Fault::MarkForeign, foreign);
        let returned = entry.standing[3] > 0;
        self.note(Fault::ReturnedBare, returned && entry.marks.is_empty());
    }

    fn departure(&mut self, departure: &[u64]) {
        let [shard, cut, stamped, until] = [0, 1, 2, 3].map(|place| departure[place]);
        self.note(Fault::DepartureShard, !is_shard(shard));
        self.note(Fault::Cut, !is_time(cut));
        match stamped {
            0 => self.note(Fault::UntilBare, until != 0),
            1 => self.note(Fault::Until, !is_time(until)),
            _ => self.note(Fault::Stamped, true),
        }
    }
}
