//! A block's work: what a block may ask of a ledger that is half full and is so again after it.

use crate::cases::{Case, Swap};
use crate::ledgers::{
    Entry, MAKING, UNKNOWN, departures, finalization, line, record, script, settlements,
};

/// The entries that stand from block to block: half a ledger with eight of each part, or, after a split, as many executed ones as leave room.
const STANDING: u64 = 24;
const SPLIT: u64 = 36;
/// The first transactions of a block: eight that a finalization releases, two legs with two crossings that close.
const RELEASED: u64 = 300;
const CLOSED: u64 = 310;

/// The block with its text taken out; and as lines, with a name of its own.
pub struct Block {
    pub case: Case,
    pub name: String,
    pub lines: String,
}

/// A quiet block, and one after a split, when each executed entry has to be held against 32 departures.
pub fn blocks() -> [Block; 2] {
    let quiet = "a block's calls, without their text";
    let split = "a block's calls after a split, without their text";
    [
        block(quiet, "", STANDING, &standing(STANDING)),
        block(split, " after a split", SPLIT, &after_a_split(SPLIT)),
    ]
}

fn block(bare: &'static str, when: &str, entries: u64, setup: &[String]) -> Block {
    let with: Vec<String> = arrive(Entry::taken_in)
        .chain(changes(RELEASED, CLOSED))
        .collect();
    // Nothing changes here: the admissions are turned away, and the calls name transactions that are not owed.
    let without: Vec<String> = arrive(Entry::turned_away)
        .chain(changes(UNKNOWN, UNKNOWN + 10))
        .collect();
    let lines = script(&with);
    let name = format!("a block of {} calls{when}, as lines", with.len());
    let swap = Swap::of_all(with, without);
    let case = Case::swapped(bare, entries, setup, swap).pictured();
    Block { case, name, lines }
}

/// Legs that stay open, cores that ask, and whole entries that were executed, whose first routes' shards have gone.
pub fn standing(count: u64) -> Vec<String> {
    let entries = (1..=count).map(|n| match n % 3 {
        0 => Entry::leg(n, 8).taken_in(),
        1 => Entry::core(n, 0).taken_in(),
        _ => Entry::whole(n).taken_in(),
    });
    let executed = (1..=count)
        .filter(|n| n % 3 == 2)
        .map(|n| line("certify", &[n, 2]));
    [MAKING.to_string()]
        .into_iter()
        .chain(entries)
        .chain(executed)
        .chain(departures(2, |_| false).into_iter().take(8))
        .collect()
}

/// Executed entries that stand by the last of their eight routes; the shards of the others have gone for good.
pub fn after_a_split(count: u64) -> Vec<String> {
    let entries = (1..=count).flat_map(|n| [Entry::whole(n).taken_in(), line("certify", &[n, 2])]);
    [MAKING.to_string()]
        .into_iter()
        .chain(entries)
        .chain(departures(4, |group| group == 7))
        .collect()
}

fn arrive(how: fn(Entry) -> String) -> impl Iterator<Item = String> {
    let entry = |n| match n {
        0..4 => Entry::whole(RELEASED + n),
        4..6 => Entry::core(RELEASED + n, 2),
        6..8 => Entry::leg(RELEASED + n, 2),
        _ => Entry::leg(CLOSED + n - 8, 2),
    };
    (0..10).map(move |n| how(entry(n)))
}

/// What the block says of those that came, and what is asked at its end, when they have gone again.
fn changes(released: u64, closed: u64) -> Vec<String> {
    let certified = (0..4).map(|n| line("certify", &[released + n, 2]));
    let absences = (4..6).map(|n| line("record_absence", &[released + n, 5, 1]));
    let resolved: Vec<u64> = (0..8).map(|n| released + n).collect();
    let marks = [
        settlements(closed, 2),
        settlements(closed + 1, 1),
        vec![line("returned", &[record(closed + 1, 1), closed + 1])],
    ]
    .concat();
    let asked = [
        "closes lent 96",
        "prune 1000 lent 144",
        "questions lent 280",
        "past_deadline 1000 lent 80",
    ];
    certified
        .chain(absences)
        .chain(marks)
        .chain([finalization(&resolved)])
        .chain(asked.map(String::from))
        .collect()
}
