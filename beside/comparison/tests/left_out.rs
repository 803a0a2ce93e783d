//! Prunes that were left out, tried on the Rust: where every call stays apart nothing shows, and each hypothesis is needed.

use comparison::apart::HYPOTHESES;
use comparison::left_out::{CAME, Came, LeftOut, Verdict, pair};
use comparison::profiles;
use comparison::random::Random;
use comparison::scripts::Names;
use comparison::stretches::script;

const SEED: u64 = 78;
const PAIRS: u64 = 6000;

fn tried() -> LeftOut {
    let names = Names::all();
    let mut counts = LeftOut::default();
    for index in 0..PAIRS {
        let mut random = Random::of(SEED, index);
        let profile = profiles::pick(&mut random);
        let text = script(&mut random, profile, &names);
        let verdict = Verdict::on(&text).expect("the script is a pair");
        let shown = String::from_utf8_lossy(&text);
        assert!(!verdict.refutes(), "pair {index} of seed {SEED}:\n{shown}");
        counts.count(&verdict);
    }
    counts
}

#[test]
fn nothing_shows_where_every_call_stays_apart_and_each_hypothesis_is_needed() {
    let counts = tried();
    assert!(counts.passing.pairs > PAIRS / 4, "{counts}");
    assert!(counts.passing_with(Came::Changed) > PAIRS / 4, "{counts}");
    for (what, name) in CAME {
        assert!(counts.passing_with(what) > 100, "{name}: {counts}");
    }
    for ((_, name), alone) in HYPOTHESES.iter().zip(counts.alone) {
        assert!(alone.pairs > 100 && alone.shown > 20, "{name}: {counts}");
    }
}

#[test]
fn a_pair_is_its_calls_with_the_prunes_and_without() {
    let text = b"new 4 1 1 1\nprune 1\n# prunes left out\nprune 2\nforget 1\nprune 3 lent 3\n";
    let made = "new 4 1 1 1\nprune 1\n# prunes left out\nprune 2\nforget 1\nprune 3 lent 3\nprune 4 lent 144\ndump\n";
    let bare = "new 4 1 1 1\nprune 1\n# prunes left out\nforget 1\nprune 4 lent 144\ndump\n";
    assert_eq!(pair(text, 4), [made, bare].concat().into_bytes());
}

/// Two entries, 9 and 0, that fall at 1100; then calls, and a prune at 1100.
fn verdict(calls: &str) -> Verdict {
    let before = "new 4 100 50 200\nregister_committed 0 0 0 9 1000 2000 10 77 0\nregister_committed 0 0 0 0 1000 2000 10 77 0\n";
    let text = format!("{before}# prunes left out\n{calls}");
    Verdict::on(&pair(text.as_bytes(), 1100)).expect("a pair")
}

/// The verdict by hand on three pairs: the entries are left alone, one is named, and one is named after a prune that is refused.
#[test]
fn a_verdict_is_as_worked_out() {
    let alone = verdict("prune 1100 lent 144\ncertify 8 2\n");
    assert!(alone.passes() && !alone.shown.any());
    let named = verdict("prune 1100 lent 144\nforget 9\n");
    assert!(named.failed[0] && named.shown.answers && !named.shown.ledger);
    let refused = verdict("prune 281474976710656 lent 144\nforget 9\n");
    assert!(refused.passes() && !refused.shown.any());
}

/// Of a bundle's items the refused one is asked, and those ahead of it; those behind it are not. One that is a word short names nothing.
#[test]
fn the_items_behind_a_refused_one_are_not_asked() {
    let prune = "prune 1100 lent 144\n";
    // A terminal of no shard, then a finalization of 9, which is written first.
    let behind = verdict(&format!("{prune}bundle 2 3 1 4 4 1 0 9 2 0 11 0 0\n"));
    assert!(behind.passes() && !behind.shown.any());
    // The finalization of 9, then an admission that is refused.
    let ahead = verdict(&format!("{prune}bundle 2 4 3 3 4 0 0 0 1 0 9 2\n"));
    assert!(ahead.failed[0] && !ahead.shown.any());
    // An absence on 9 that is refused for its shard.
    let itself = verdict(&format!("{prune}bundle 1 5 3 9 0 1\n"));
    assert!(itself.failed[0] && !itself.shown.any());
    // A terminal that is a word short, of shard 0; an absence that is one short, of transaction 0.
    let short = verdict(&format!("{prune}bundle 1 1 3 0 11 0\nbundle 1 5 2 0 5\n"));
    assert!(short.passes() && !short.shown.any());
}

/// A case of the instances: its first line, and the calls with the prunes and without, the last prune and the dump apart.
struct Case<'a> {
    name: &'a str,
    made: Vec<&'a str>,
    bare: Vec<&'a str>,
    last: u64,
}

impl<'a> Case<'a> {
    /// Each side is its remark, then its calls.
    fn of(made: &'a str, bare: &'a str) -> Self {
        let [made, bare] = [made, bare].map(|side| side.lines().collect::<Vec<&str>>());
        let calls = |side: &[&'a str]| side[1..side.len() - 2].to_vec();
        let last = made[made.len() - 2].split(' ').nth(1);
        Self {
            name: made[0],
            made: calls(&made),
            bare: calls(&bare),
            last: last.and_then(|now| now.parse().ok()).expect("a prune"),
        }
    }
}

/// Each case fails the hypothesis alone that its first line begins with, and shows in what that line says.
#[test]
fn the_instances_fail_and_show_what_they_say() {
    let text = include_str!("../../instances/left-out.calls");
    let blocks: Vec<&str> = text[2..].split("\n# ").collect();
    for sides in blocks.chunks(2) {
        let case = Case::of(sides[0], sides[1]);
        let (name, made) = (case.name, &case.made);
        let is_prune = |line: &&str| line.starts_with("prune");
        let others: Vec<&str> = made
            .iter()
            .copied()
            .filter(|line| !is_prune(line))
            .collect();
        assert_eq!(others, case.bare, "{name}");
        let first = made.iter().position(is_prune).expect("a prune left out");
        let (before, calls) = made.split_at(first);
        let text = [before, &["# prunes left out"], calls, &[""]]
            .concat()
            .join("\n");
        let verdict = Verdict::on(&pair(text.as_bytes(), case.last)).expect("a pair");
        let expected = HYPOTHESES.map(|(_, hypothesis)| name.starts_with(hypothesis));
        assert_eq!(verdict.failed, expected, "{name}");
        assert_eq!(
            verdict.passes(),
            name.starts_with("Nothing shows"),
            "{name}"
        );
        let shown = verdict.shown;
        let told = ["answer", "ledger", "report"].map(|what| name.contains(what));
        assert_eq!([shown.answers, shown.ledger, shown.reports], told, "{name}");
    }
}
