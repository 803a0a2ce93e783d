//! A child module of the Rust's ledger: reads its private fields, and sets them only where a ledger is made of
//! another, for a copy, or of a snapshot.

use std::collections::{BTreeMap, BTreeSet};

use hyperscale_engine::legs::{Classified, CrossingEdge};
use hyperscale_types::{PriceTable, RoutePrefix, ShardId, SubstateKey, TxHash, Verifiable, WeightedTimestamp};
use hyperscale_vm_effects::Kind;

use super::{Certified, Departure, Ledger, Owed, Part};
use crate::book::{Held, Holder, Leaving, Remote, Standing};
use crate::snapshot::Entry;
use crate::words::Admission;

const REMAINDER: u64 = 3;

/// The ledger has no `Clone`, and a list too short must leave it as it was.
pub fn copy(ledger: &Ledger) -> Ledger {
    Ledger {
        local: ledger.local,
        owed: ledger.owed.clone(),
        issuers: ledger.issuers.clone(),
        departed: ledger.departed.clone(),
    }
}

pub fn absences(ledger: &Ledger, tx_hash: TxHash) -> usize {
    ledger.owed.get(&tx_hash).map_or(0, |owed| owed.absences.len())
}

pub fn absent(ledger: &Ledger, tx_hash: TxHash, shard: ShardId, key: SubstateKey) -> bool {
    ledger.owed.get(&tx_hash).is_some_and(|owed| owed.absences.contains(&(shard, key)))
}

pub fn departures(ledger: &Ledger) -> usize {
    ledger.departed.len()
}

pub fn departed(ledger: &Ledger) -> BTreeSet<u64> {
    ledger.departed.keys().map(|shard| shard.0).collect()
}

pub fn has_departure(ledger: &Ledger, shard: ShardId) -> bool {
    ledger.departed.contains_key(&shard)
}

pub fn reach(ledger: &Ledger, tx_hash: TxHash) -> &[RoutePrefix] {
    ledger.owed.get(&tx_hash).map_or(&[], |owed| &owed.figures.reach)
}

pub fn owed(ledger: &Ledger) -> BTreeMap<u64, Standing> {
    let standing = |owed: &Owed| Standing {
        at: owed.figures.deadline.at().0,
        end: owed.figures.deadline.validity_end().0,
        part: part(owed),
        certificate: certificate(owed),
        absences: owed.absences.len(),
        named: owed.departed_by.is_some(),
        remote: remote(ledger, owed),
    };
    ledger.owed.iter().map(|(tx_hash, owed)| (tx_hash.0, standing(owed))).collect()
}

fn remote(ledger: &Ledger, owed: &Owed) -> Remote {
    let departed = |route| ledger.departure_over(owed, route).is_some();
    let mut routes = ledger.remote_routes(owed).peekable();
    if routes.peek().is_none() {
        Remote::Nowhere
    } else if routes.all(departed) {
        Remote::Departed
    } else {
        Remote::Open
    }
}

pub fn held(ledger: &Ledger) -> Held {
    let holder = |owed: &Owed| Holder {
        transaction: owed.figures.tx_hash.0,
        anchor: owed.figures.committed.anchor.0,
        named: owed.departed_by.map_or(0, |shard| shard.0),
        routes: owed.figures.reach.iter().map(|route| route.0).collect(),
    };
    let leaving = |(shard, departure): (&ShardId, &Departure)| Leaving {
        shard: shard.0,
        cut: departure.cut.0,
        until: departure.readable_until.map(|until| until.0),
    };
    Held {
        local: ledger.local.0,
        entries: ledger.owed.values().map(holder).collect(),
        departures: ledger.departed.iter().map(leaving).collect(),
    }
}

/// The index as pairs of record and transaction, rising.
pub fn pairs(ledger: &Ledger) -> Vec<(u64, u64)> {
    let named = |(record, names): (&SubstateKey, &BTreeSet<TxHash>)| {
        let record = record.0;
        names.iter().map(move |tx_hash| (record, tx_hash.0)).collect::<Vec<_>>()
    };
    ledger.issuers.iter().flat_map(named).collect()
}

/// The numbers of entries, departures and index pairs, then their words.
pub fn dump(ledger: &Ledger, out: &mut Vec<u64>) {
    let pairs = pairs(ledger);
    out.extend([ledger.owed.len() as u64, ledger.departed.len() as u64, pairs.len() as u64]);
    for owed in ledger.owed.values() {
        push_entry(owed, out);
    }
    push_departures(ledger, out);
    out.extend(pairs.into_iter().flat_map(|(record, tx_hash)| [record, tx_hash]));
}

/// The numbers of entries and departures, each entry's length, then their words.
pub fn snapshot(ledger: &Ledger, out: &mut Vec<u64>) {
    out.extend([ledger.owed.len() as u64, ledger.departed.len() as u64]);
    let mut entries = Vec::new();
    for owed in ledger.owed.values() {
        let before = entries.len();
        push_entry(owed, &mut entries);
        out.push((entries.len() - before) as u64);
    }
    out.extend(entries);
    push_departures(ledger, out);
}

fn push_entry(owed: &Owed, out: &mut Vec<u64>) {
    push_admission(owed, out);
    push_standing(owed, out);
}

fn push_admission(owed: &Owed, out: &mut Vec<u64>) {
    let figures = &owed.figures;
    let classified = owed.part.kept().map(|kept| &kept.classified);
    let core: Vec<u64> = classified.map_or(Vec::new(), |c| c.core().iter().map(|s| s.0).collect());
    let edges = classified.map_or(&[] as &[CrossingEdge], Classified::edges);
    out.extend([figures.reach.len() as u64, core.len() as u64, edges.len() as u64]);
    out.extend([
        figures.tx_hash.0,
        figures.deadline.at().0,
        figures.deadline.validity_end().0,
        figures.committed.anchor.0,
        figures.charge.0,
        u64::from(classified.is_some()),
    ]);
    out.extend(figures.reach.iter().map(|route| route.0));
    out.extend(core);
    out.extend(edges.iter().map(|edge| edge.crossing.id.0));
    out.extend(edges.iter().map(|edge| edge.from.0));
    out.extend(edges.iter().map(|edge| u64::from(edge.crossing.kind == Kind::Owed)));
    out.extend(edges.iter().map(|edge| edge.to.len() as u64));
    out.extend(edges.iter().flat_map(|edge| edge.to.iter().map(|shard| shard.0)));
}

fn push_standing(owed: &Owed, out: &mut Vec<u64>) {
    let held = owed.part.held();
    let returned = held.is_some_and(|held| held.returned);
    let named = owed.departed_by.map_or(0, |shard| shard.0);
    let [part, certificate] = [part(owed), certificate(owed)];
    out.extend([part, certificate, named, u64::from(returned), owed.absences.len() as u64]);
    out.extend(owed.absences.iter().flat_map(|(shard, key)| [shard.0, key.0]));
    out.push(held.map_or(0, |held| held.gone.len() as u64));
    out.extend(held.into_iter().flat_map(|held| held.gone.iter().map(|record| record.0)));
}

fn push_departures(ledger: &Ledger, out: &mut Vec<u64>) {
    for (shard, departure) in &ledger.departed {
        let until = departure.readable_until;
        let stamped = u64::from(until.is_some());
        out.extend([shard.0, departure.cut.0, stamped, until.map_or(0, |until| until.0)]);
    }
}

/// The ledger of these words, which are such as are written: an entry comes in as an admission, which also puts it into the index, and
/// is then set to how it stood.
pub fn restored(local: ShardId, entries: &[Entry], departures: &[&[u64]]) -> Ledger {
    let mut ledger = Ledger::new(local);
    for entry in entries {
        let admission = Admission::read(entry.admission).expect("as an admission's");
        let Admission { committed, transaction, classified } = admission;
        let tx_hash = transaction.hash();
        let member = Verifiable(transaction);
        ledger.register_committed(committed, &PriceTable, [(&member, &classified)]);
        set_standing(ledger.owed.get_mut(&tx_hash).expect("just taken in"), entry);
    }
    for departure in departures {
        let [cut, until] = [1, 3].map(|place| WeightedTimestamp(departure[place]));
        let readable_until = (departure[2] == 1).then_some(until);
        ledger.departed.insert(ShardId(departure[0]), Departure { cut, readable_until });
    }
    ledger
}

fn set_standing(owed: &mut Owed, entry: &Entry) {
    let [part, certificate, named, returned] = entry.standing;
    if part == REMAINDER {
        owed.part.resolve();
    }
    if let Some(held) = owed.part.held_mut() {
        held.gone = entry.marks.iter().copied().map(SubstateKey).collect();
        held.returned = returned == 1;
    }
    owed.certified = certified(certificate).expect("a code");
    owed.departed_by = (named > 0).then_some(ShardId(named));
    let absences = entry.absences.chunks_exact(2);
    owed.absences = absences.map(|pair| (ShardId(pair[0]), SubstateKey(pair[1]))).collect();
}

fn part(owed: &Owed) -> u64 {
    match owed.part {
        Part::Whole => 0,
        Part::Leg(_) => 1,
        Part::Core(_) => 2,
        Part::Remainder(_) => REMAINDER,
    }
}

pub fn certified(code: u64) -> Option<Certified> {
    match code {
        0 => Some(Certified::No),
        1 => Some(Certified::ByAbandonment),
        2 => Some(Certified::ByExecution),
        _ => None,
    }
}

fn certificate(owed: &Owed) -> u64 {
    match owed.certified {
        Certified::No => 0,
        Certified::ByAbandonment => 1,
        Certified::ByExecution => 2,
    }
}
