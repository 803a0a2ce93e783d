//! The calls that go over all of a full ledger: prune, closes, the long lists, and those that go over the counts of rebuilt entries.

use crate::cases::{Case, Swap};
use crate::ledgers::{
    Entry, FULL, MAKING, UNKNOWN, abandonment, counted, counted_shard, departures,
    departures_on_one_path, line, rebuilt, record, settlements,
};

pub fn cases() -> Vec<Case> {
    [prunes(), closes(), lists(), counts()]
        .into_iter()
        .flatten()
        .map(Case::pictured)
        .collect()
}

/// A full ledger of such entries.
pub fn ledger(entry: impl Fn(u64) -> Entry) -> Vec<String> {
    let taken = (1..=FULL).map(|tx| entry(tx).taken_in());
    [MAKING.to_string()].into_iter().chain(taken).collect()
}

fn certified() -> Vec<String> {
    (1..=FULL).map(|tx| line("certify", &[tx, 2])).collect()
}

/// Executed entries, each with eight remote routes that have four departures over them, so that the first prune drops none. At 31 they
/// are past reading but for the one that counts over the open group's routes.
fn executed(open: u64) -> Vec<String> {
    [
        ledger(Entry::whole),
        certified(),
        departures(4, |group| group == open),
    ]
    .concat()
}

fn prunes() -> Vec<Case> {
    let stand = |name, open| Case::repeated(name, FULL, &executed(open), prune(31));
    let none_open = 8;
    // A record names all entries in one line, for a shard that can be read until 30.
    let named = [
        rebuilt(FULL),
        vec![line("record_terminal", &[5, 14, 1, 30])],
    ]
    .concat();
    let crowded = [
        ledger(|tx| Entry::whole(tx).reaching_together()),
        certified(),
        departures_on_one_path(),
    ]
    .concat();
    let cores = ledger(|tx| Entry::core(tx, 0));
    vec![
        Case::repeated("prune, all stand by rule 1", FULL, &cores, prune(31)),
        stand("prune, each stands at its first route", 0),
        stand("prune, each stands at its eighth route", 7),
        fall("prune, all fall, named (reports' text included)", &named),
        fall(
            "prune, all fall, 8 routes (reports' text included)",
            &executed(none_open),
        ),
        fall(
            "prune, all fall, 32 owners a route (reports' text included)",
            &crowded,
        ),
    ]
}

fn prune(now: u64) -> String {
    format!("prune {now} lent 144")
}

/// A prune at 31, when all fall, beside one at 30, when all departures can be read and nothing falls. The making at the start of each block
/// restores the ledger.
fn fall(name: &'static str, setup: &[String]) -> Case {
    let block = |now| [setup, &[prune(now)]].concat();
    let swap = Swap::of_one(block(31), block(30), prune(30));
    Case::swapped(name, FULL, setup, swap)
}

fn closes() -> Vec<Case> {
    let call = "closes lent 96";
    let legs = ledger(|tx| Entry::leg(tx, 8));
    let early = (1..=FULL).flat_map(|tx| settlements(tx, 7)).collect();
    let marked = [legs.clone(), early].concat();
    let row = |name, setup: &[String]| Case::repeated(name, FULL, setup, call.into());
    vec![
        row("closes of legs, none marked", &legs),
        row("closes of legs, 7 of 8 marked", &marked),
        all_close(call.into()),
    ]
}

/// Legs with one record each, since every mark is a line more. The same lines stand in both blocks, but the idle closes before the marks.
fn all_close(call: String) -> Case {
    let legs = ledger(|tx| Entry::leg(tx, 1).reaching_nowhere());
    let marks: Vec<String> = (1..=FULL).flat_map(|tx| settlements(tx, 1)).collect();
    let closes = std::slice::from_ref(&call);
    let with = [&legs[..], &marks, closes].concat();
    let without = [&legs[..], closes, &marks].concat();
    let name = "closes of 1-record legs, all close (text included)";
    Case::swapped(name, FULL, &legs, Swap::of_one(with, without, call))
}

/// The longest lists, and the readings that look at most of a ledger for a short one.
fn lists() -> Vec<Case> {
    let cores = ledger(|tx| Entry::core(tx, 0));
    let legs = ledger(|tx| Entry::leg(tx, 8));
    let sharing = ledger(|tx| Entry::leg(tx, 8).sharing());
    let together = [
        ledger(|tx| Entry::whole(tx).reaching_together()),
        departures_on_one_path(),
    ]
    .concat();
    let row = |name, setup: &[String], call: &str| Case::repeated(name, FULL, setup, call.into());
    vec![
        row("questions, 336", &cores, "questions lent 1680"),
        row("past deadline, 48", &cores, "past_deadline 1000 lent 240"),
        row(
            "issuers, one in an index of 384 pairs",
            &legs,
            &format!("issuers_of {} lent 2", record(25, 7)),
        ),
        row(
            "issuers, 48 in an index of 384 pairs",
            &sharing,
            &format!("issuers_of {} lent 96", record(1, 7)),
        ),
        row(
            "counterparts, 8 routes that each of 32 departures owns",
            &together,
            "counterparts 25 32 lent 40",
        ),
    ]
}

/// 32 shards have a count.
fn counts() -> Vec<Case> {
    let setup = counted(FULL);
    let row = |name, call: &str| Case::repeated(name, FULL, &setup, call.into());
    vec![
        row("rebuilt by shard, 32", "rebuilt_by_shard lent 64"),
        row("rebuilt, the sum of 32 counts", "rebuilt"),
        counting(),
    ]
}

/// A record of a shard in the middle of the counts, on a ledger with room for what it rebuilds; the like of no shard is turned away.
fn counting() -> Case {
    let tx = FULL * 10;
    let setup = counted(FULL - 1);
    let goes = |tx| line("forget", &[tx]);
    let with = vec![abandonment(counted_shard(16), tx), goes(tx)];
    let without = vec![abandonment(0, tx), goes(UNKNOWN)];
    let name = "abandonment record, the 17th of 32 counts, and forget";
    Case::swapped(name, FULL - 1, &setup, Swap::of_all(with, without))
}
