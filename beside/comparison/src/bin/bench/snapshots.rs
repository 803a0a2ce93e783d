//! Snapshots of an empty, a half-full and a full ledger; and beside the restore of each the calls by which the Rust comes to the same ledger.

use comparison::image::snapshot_of;
use reference::Runner;

use crate::cases::{Case, Swap};
use crate::ledgers::{Entry, FULL, MAKING, UNKNOWN, departures, line, settlements, stamps};

/// A row: a snapshot written, or one restored.
pub struct Snapshot {
    pub case: Case,
    /// Behind a restore: the calls that lead to the same ledger.
    pub calls: Option<Case>,
}

/// The first transaction: all have as many digits as one that is not owed.
const FIRST: u64 = 100;

pub fn rows() -> Vec<Snapshot> {
    let levels = [0, FULL / 2, FULL];
    let (written, restored) = (levels.map(written), levels.map(restored));
    written.into_iter().chain(restored).collect()
}

fn written(count: u64) -> Snapshot {
    let setup = lines(count, false);
    let call = format!("snapshot lent {}", words(&setup).len());
    let name = "snapshot, beside the comparison's own writer";
    Snapshot {
        case: pictured(Case::repeated(name, count, &setup, call)),
        calls: None,
    }
}

/// A restore leaves the ledger as it was: the setup leads to the one whose snapshot it is. It is timed in a block, as the calls are; a bundle
/// of the same words is turned away.
fn restored(count: u64) -> Snapshot {
    let [setup, idle] = [false, true].map(|idle| lines(count, idle));
    let [call, turned_away] = ["restore", "bundle"].map(|name| vec![line(name, &words(&setup))]);
    let name = "restore, beside the calls that lead there";
    let case = |swap| Case::swapped(name, count, &setup, swap);
    Snapshot {
        case: pictured(case(Swap::of_all(call, turned_away))),
        calls: Some(case(Swap::of_all(setup.clone(), idle))),
    }
}

fn pictured(case: Case) -> Case {
    match case.entries {
        FULL => case.pictured(),
        _ => case,
    }
}

/// The snapshot of the ledger that these calls lead to.
fn words(calls: &[String]) -> Vec<u64> {
    let mut runner = Runner::default();
    for call in calls {
        runner.take(call.as_bytes(), &mut Vec::new());
    }
    snapshot_of(&runner.book)
}

/// The calls that lead to a ledger with so many legs, as full as they can be, and departures in proportion; or as many lines that change
/// nothing on it. Those in place of its admissions, absences and marks are turned away as early as may be, since what an idle line takes among
/// others is more than what is added for it, by `repeat`.
fn lines(count: u64, idle: bool) -> Vec<String> {
    let each = count / 12;
    let all = || FIRST..FIRST + count;
    let making = match idle {
        true => line("certify", &[UNKNOWN, 2]),
        false => MAKING.to_string(),
    };
    let admission = |tx| match idle {
        true => Entry::leg(tx, 8).turned_away(),
        false => Entry::leg(tx, 8).taken_in(),
    };
    let shard = if idle { 0 } else { 5 };
    let absences = |tx| (0..8).map(move |n| line("record_absence", &[tx, shard, n]));
    let marks = |tx| settlements(if idle { UNKNOWN } else { tx }, 8);
    [making]
        .into_iter()
        .chain(all().map(admission))
        .chain(all().map(|tx| line("certify", &[tx, 2])))
        .chain(all().flat_map(absences))
        .chain(all().flat_map(marks))
        .chain(departures(each, |_| true))
        .chain(stamps(each))
        .collect()
}
