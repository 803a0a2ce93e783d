//! The safe interface: a ledger made, stored, read again and pruned, beside the ledger in plain Rust.

mod support;

use owed_ledger::{LONGEST_REPORTS, LONGEST_SNAPSHOT, Ledger, Refusal, Spans, slices};
use support::plain::report_bytes;
use support::random::Random;

#[test]
fn stored_and_pruned_in_turn() {
    let mut random = Random::new(4);
    for round in 0..300 {
        let mut plain = if round == 0 {
            Random::full()
        } else {
            random.ledger()
        };
        let mut ledger =
            Ledger::from_snapshot(&plain.bytes()).expect("a ledger that calls reach is accepted");
        let mut clocks = [random.time(), random.time(), random.time()];
        clocks.sort_unstable();
        for now in clocks {
            let want = plain.prune(now);
            let pruned = ledger.prune(now).expect("a time is accepted");
            let reports: Vec<_> = pruned
                .reports
                .iter()
                .map(|r| (r.transaction, u64::from(r.covered), r.charge))
                .collect();
            assert_eq!(
                (pruned.written, pruned.fallen),
                (want.reports.len() as u64, want.fallen)
            );
            assert_eq!(reports, want.reports);
            assert_eq!(ledger.words(), plain.words());
            assert_eq!(
                slices::snapshot_len(ledger.as_bytes()),
                Some(ledger.as_bytes().len())
            );
        }
        assert_eq!(ledger.clone().prune(1 << 48), Err(Refusal::NoTime));
    }
}

#[test]
fn the_longest() {
    assert_eq!(Random::full().bytes().len(), LONGEST_SNAPSHOT);
    let mut full = Random::full();
    for e in &mut full.entries {
        // Whole, and named by a shard without a departure: each falls with a report.
        (e.part, e.decomposed, e.named) = (support::plain::Part::Whole, 0, 40);
        (e.core, e.edges, e.marks, e.absences, e.returned) = (vec![], vec![], vec![], vec![], 0);
    }
    let mut ledger =
        Ledger::from_snapshot(&full.bytes()).expect("a ledger that calls reach is accepted");
    let pruned = ledger.prune(0).expect("a time is accepted");
    assert_eq!((pruned.written, pruned.fallen), (48, 48));
    assert_eq!(report_bytes(&full.prune(0)).len(), LONGEST_REPORTS);
    assert_eq!(ledger.words(), full.words());
}

#[test]
fn sizes_that_stand_nowhere() {
    let mut words = Ledger::new(
        1,
        Spans {
            validity: 1,
            core: 1,
            leg: 1,
        },
    )
    .expect("a ledger is made")
    .words();
    for counts in [1, u64::MAX, 1 << 63, (1 << 63) - 1] {
        words[4] = counts;
        let bytes = support::plain::bytes_of(&words);
        assert_eq!(slices::snapshot_len(&bytes), None);
    }
    words[4] = 0;
    words[5] = u64::MAX;
    assert_eq!(
        slices::snapshot_len(&support::plain::bytes_of(&words)),
        None
    );
    words[5] = 1;
    words.push(u64::MAX);
    assert_eq!(
        slices::snapshot_len(&support::plain::bytes_of(&words)),
        None
    );
    words[6] = u64::MAX;
    assert_eq!(
        slices::snapshot_len(&support::plain::bytes_of(&words)),
        None
    );
    assert_eq!(slices::snapshot_len(&[]), None);
}
