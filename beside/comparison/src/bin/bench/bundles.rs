//! Bundles: all that a block brings in one call, beside the Rust making the calls of its items one by one; and what an item of each kind costs.

use comparison::items::{Item, joined};
use reference::{DEPARTURES, ITEMS, KINDS};

use crate::cases::{Case, Swap};
use crate::ledgers::{
    Entry, MAKING, abandonment, abandonment_of, departures, finalization, line, rebuilt,
};
use crate::work::{after_a_split, standing};

/// A row: a bundle, or an item of one.
pub struct Bundle {
    pub case: Case,
    /// Where the row is what an item costs: how many the bundle has, and the empty bundle on the same ledger.
    pub items: Option<(u32, Case)>,
    /// Whether it is refused, and so has to be undone.
    pub refused: bool,
}

/// Entries when a bundle comes, in a quiet time and after a split.
const QUIET: u64 = 24;
const SPLIT: u64 = 36;
/// The first transaction of those that a bundle takes in and the next one releases; and of those that a record in it rebuilds and a finalization in it
/// releases.
const MOVED: u64 = 300;
const REBUILT: u64 = 400;
/// Items of the rows by kind, where entries limit them.
const ROOM: u64 = 24;

pub fn rows() -> Vec<Bundle> {
    [blocks(), items()].into_iter().flatten().collect()
}

/// The bundle without items.
fn empty(setup: &[String]) -> Case {
    Case::repeated("an empty bundle", QUIET, setup, bundle(&[]))
}

/// A bundle whose items are these calls, in this order.
fn bundle(calls: &[String]) -> String {
    let items: Vec<Item> = calls.iter().map(|call| item(call)).collect();
    line("bundle", &joined(&items))
}

fn item(call: &str) -> Item {
    let mut words = call.split(' ');
    let name = words.next();
    let place = KINDS.iter().position(|kind| Some(kind.call) == name);
    let words = words.map(|word| word.parse().expect("a number"));
    Item::of(
        place.expect("a call that items are") as u64 + 1,
        words.collect(),
    )
}

/// Whole bundles. Each releases first what it takes in last, so that each restores the ledger that the one before it left.
fn blocks() -> Vec<Bundle> {
    let whole = |case: Case| Bundle {
        case: case.pictured(),
        items: None,
        refused: false,
    };
    let row = |name, entries, setup: Vec<String>, calls: &[String]| {
        let call = bundle(calls);
        let setup = [setup, vec![call.clone()]].concat();
        whole(Case::repeated(name, entries, &setup, call))
    };
    let (quiet, split, full) = (quiet(), split(), full());
    // The last absence is the last item that is done: it is of no shard.
    let mut spoilt = full.clone();
    let last = spoilt
        .iter_mut()
        .rfind(|call| call.starts_with("record_absence"));
    *last.expect("it has absences") = line("record_absence", &[MOVED, 0, 0]);
    let stand = standing(QUIET - 16);
    let setup = [stand.clone(), vec![bundle(&full)]].concat();
    let refused = "a refused bundle: the full one, its last item refused";
    vec![
        whole(empty(&standing(QUIET))),
        row(
            "a bundle of a quiet block, 25 items",
            QUIET,
            standing(QUIET - 14),
            &quiet,
        ),
        row(
            "a bundle after a split, 25 items",
            SPLIT,
            after_a_split(SPLIT - 6),
            &split,
        ),
        row("a full bundle, 64 items", QUIET, stand, &full),
        Bundle {
            refused: true,
            ..whole(Case::repeated(refused, QUIET, &setup, bundle(&spoilt)))
        },
    ]
}

/// Whole entries, cores and legs, with 1 to 8 records where they have any.
fn arrivals(count: u64) -> Vec<String> {
    let entry = |n| match n % 7 {
        0 | 1 => Entry::whole(MOVED + n),
        2 | 3 => Entry::core(MOVED + n, 1 + n % 8),
        _ => Entry::leg(MOVED + n, 1 + n % 8),
    };
    (0..count).map(|n| entry(n).taken_in()).collect()
}

/// So many absences, in turns on so many arrivals.
fn absences(count: u64, on: u64) -> Vec<String> {
    let absence = |n| line("record_absence", &[MOVED + n % on, 5, n / on]);
    (0..count).map(absence).collect()
}

/// Finalizations that release these, so many in each.
fn releases(transactions: impl Iterator<Item = u64>, each: usize) -> Vec<String> {
    let transactions: Vec<u64> = transactions.collect();
    transactions.chunks(each).map(finalization).collect()
}

/// Terminals of shards that have gone already.
fn terminals(count: usize) -> Vec<String> {
    departures(2, |_| false).into_iter().take(count).collect()
}

/// 14 admissions, 8 absences, 2 finalizations, 1 terminal.
fn quiet() -> Vec<String> {
    let moved = (0..14).map(|n| MOVED + n);
    [
        arrivals(14),
        absences(8, 8),
        releases(moved, 7),
        terminals(1),
    ]
    .concat()
}

/// 6 admissions, 8 absences, 3 finalizations, 4 records of 8 entries each, of which 2 are rebuilt, 4 terminals.
fn split() -> Vec<String> {
    let named = |n: u64| (1 + 6 * n..7 + 6 * n).chain(REBUILT + 2 * n..REBUILT + 2 * n + 2);
    let records = (0..4).map(|n| abandonment_of(24, &named(n).collect::<Vec<_>>()));
    let gone = (0..6).map(|n| MOVED + n).chain((0..8).map(|n| REBUILT + n));
    [
        arrivals(6),
        absences(8, 6),
        releases(gone, 5),
        records.collect(),
        terminals(4),
    ]
    .concat()
}

/// 16 admissions, 24 absences, 12 finalizations, 8 records of an entry that is owed and one that is rebuilt, 4 terminals.
fn full() -> Vec<String> {
    let records = (0..8).map(|n| abandonment_of(24, &[1 + n, REBUILT + n]));
    let gone = (0..16)
        .map(|n| MOVED + n)
        .chain((0..8).map(|n| REBUILT + n));
    [
        arrivals(16),
        absences(24, 16),
        releases(gone, 2),
        records.collect(),
        terminals(4),
    ]
    .concat()
}

/// A bundle of as many items of one kind as fit. A making restores the ledger, and its entries are those that are soonest there.
fn items() -> Vec<Bundle> {
    let soonest = rebuilt(QUIET);
    let legs = || (1..=ROOM).map(|n| Entry::leg(MOVED + n, 8).taken_in());
    let standing_legs: Vec<String> = [MAKING.to_string()].into_iter().chain(legs()).collect();
    let firsts = departures(DEPARTURES as u64 / 8, |_| false);
    let rebuilds = (1..=ROOM).map(|n| abandonment(5, MOVED + n)).collect();
    let released = (1..=ROOM).map(|n| finalization(&[MOVED + n])).collect();
    let absent = |n| line("record_absence", &[1 + n / 8, 5, n % 8]);
    vec![
        each("item: terminal, first of its shard", &soonest, firsts),
        each(
            "item: abandonment record that rebuilds one",
            &soonest,
            rebuilds,
        ),
        each(
            "item: finalization that releases one",
            &standing_legs,
            released,
        ),
        each(
            "item: admission of a leg with 8 records",
            &soonest,
            legs().collect(),
        ),
        each(
            "item: absence, new",
            &soonest,
            (0..ITEMS).map(absent).collect(),
        ),
    ]
}

fn each(name: &'static str, setup: &[String], calls: Vec<String>) -> Bundle {
    let made = bundle(&calls);
    let block = |call: &String| [setup, std::slice::from_ref(call)].concat();
    let idle = no_kind(&made, calls.len());
    let swap = Swap::of_one(block(&made), block(&idle), idle);
    Bundle {
        case: Case::swapped(name, QUIET, setup, swap),
        items: Some((calls.len() as u32, empty(setup))),
        refused: false,
    }
}

/// The same bundle, but its last kind is none: as much to read, and turned away.
fn no_kind(bundle: &str, items: usize) -> String {
    let mut words: Vec<&str> = bundle.split(' ').collect();
    words[1 + items] = "6";
    words.join(" ")
}
