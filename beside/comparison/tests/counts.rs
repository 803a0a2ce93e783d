//! Counts by shard, tried on the Rust: they are kept anew here from the calls and their answers alone, and what is held, listed, summed and refused is
//! held to them.

use std::collections::{BTreeMap, BTreeSet};

use comparison::bundles::contents;
use comparison::scripts::{Names, line, script};
use comparison::steps::each_call;
use reference::{Book, FILLER, Runner};

const SEED: u64 = 81;
const SCRIPTS: u64 = 3000;

type Counts = BTreeMap<u64, u64>;

/// The transactions of a record's groups; none where its words end before them.
fn named(numbers: &[u64]) -> Option<BTreeSet<u64>> {
    let groups = *numbers.first()? as usize;
    let words = numbers.get(groups.checked_add(2)?..)?;
    let groups = words.get(..groups.checked_mul(5)?)?.chunks_exact(5);
    Some(groups.map(|group| group[0]).collect())
}

/// What a record of well formed words is refused by, if by anything.
fn refusal(numbers: &[u64], before: &Book, counts: &Counts) -> u64 {
    let named = named(numbers).expect("its words are well formed");
    let new = named.iter().filter(|t| !before.owes(**t)).count();
    if new > 48 - before.tally().owed.len() {
        6
    } else if new > 0 && counts.len() == 32 && !counts.contains_key(&numbers[1]) {
        14
    } else {
        0
    }
}

/// What a call that was made once left of the counts.
fn after(runner: &Runner, before: &Book, counts: &Counts) -> Counts {
    let reply = runner.reply.as_ref().expect("the line is a call");
    let numbers = &runner.numbers;
    match (reply.call.name, reply.status) {
        ("restore", 0) => {
            let pairs = numbers[5..][..2 * numbers[4] as usize].chunks_exact(2);
            pairs.map(|pair| (pair[0], pair[1])).collect()
        }
        ("new" | "restore", _) => Counts::new(),
        ("record_abandonment", status @ (0 | 6 | 14)) => {
            assert_eq!(status, refusal(numbers, before, counts), "{numbers:?}");
            let mut counts = counts.clone();
            if status == 0 && reply.said[0] > 0 {
                let count = counts.entry(numbers[1]).or_default();
                *count = count.saturating_add(reply.said[0]);
            }
            counts
        }
        _ => counts.clone(),
    }
}

/// What `rebuilt_by_shard`, `rebuilt`, `dump` and `snapshot` say of a ledger whose counts are these.
fn told(book: &Book, counts: &Counts) {
    let pairs: Vec<u64> = counts.iter().flat_map(|(s, n)| [*s, *n]).collect();
    let total: u128 = counts.values().map(|count| u128::from(*count)).sum();
    let sum = total.min(u128::from(u64::MAX)) as u64;
    let mut runner = Runner::default();
    runner.book = book.clone();
    let mut say = |name: &str, room: Option<u64>| {
        runner.take(line(name, &[], room).as_bytes(), &mut Vec::new());
        let reply = runner.reply.take().expect("the line is a call");
        (reply.status, reply.said, reply.lent)
    };
    let room = pairs.len() as u64;
    let listed = (0, vec![room / 2], pairs.clone());
    assert_eq!(say("rebuilt_by_shard", Some(room)), listed);
    if let Some(short) = room.checked_sub(1) {
        let untouched = (9, vec![], vec![FILLER; short as usize]);
        assert_eq!(say("rebuilt_by_shard", Some(short)), untouched);
    }
    assert_eq!(say("rebuilt", None).1, [sum]);
    let head = [&[room / 2][..], &pairs].concat();
    let written = say("snapshot", Some(5959)).2;
    assert_eq!(written[4..][..head.len()], head);
    assert_eq!(contents(book)[4..][..head.len()], head);
}

#[test]
fn counts_are_those_of_the_calls_answers() {
    let names = Names::all();
    let (mut full, mut refused) = (0, 0);
    for index in 0..SCRIPTS {
        let text = script(SEED, index, &names).text;
        let mut counts = Counts::new();
        let runner = each_call(&text, |step| {
            let reply = step.after.reply.as_ref().expect("the line is a call");
            let held = step.after.book.tally().counts;
            if step.once && reply.call.name != "bundle" {
                counts = after(step.after, &step.before, &counts);
                let shown = String::from_utf8_lossy(step.line);
                assert_eq!(held, counts, "script {index}: {shown}");
            }
            full += u64::from(held.len() == 32);
            refused += u64::from(reply.status == 14);
            counts = held;
        });
        told(&runner.book, &counts);
    }
    assert!(
        full > SCRIPTS && refused > 500,
        "{full} full, {refused} refused"
    );
}
