//! Holds the generator to its purpose: every refusal of every call, every rule of prune standing and falling, and every way an
//! entry goes, comes up in a few thousand scripts.

use std::sync::LazyLock;

use comparison::bundles::EDGES;
use comparison::choices::CHOICES;
use comparison::counts::{RECORDS, SUMS};
use comparison::coverage::Coverage;
use comparison::prunes::{RULES, Rule};
use comparison::scripts::{Names, script};
use comparison::snapshots::{HELD, ROOMS};
use comparison::trees::{LEAVES, MET, PLACES, UNIFORM, WHYS};
use reference::{BREAKS, FAULTS, LOWEST_LEAF};

/// Each call with the refusals that the paper's table allows it.
const REFUSALS: [(&str, &[u64]); 26] = [
    ("new", &[1, 2]),
    ("restore", &[12, 13]),
    ("register_committed", &[3, 4, 5, 6]),
    ("record_absence", &[4, 7]),
    ("certify", &[5]),
    ("record_abandonment", &[3, 4, 5, 6, 14]),
    ("closes", &[9]),
    ("release_resolved", &[5]),
    ("record_terminal", &[3, 4, 5, 8]),
    ("stamp_terminal", &[3, 4]),
    ("prune", &[3, 9]),
    ("bundle", &[3, 4, 5, 6, 7, 8, 10, 11, 14]),
    ("questions", &[9]),
    ("open_at", &[3, 4]),
    ("answers", &[3, 4, 5]),
    ("past_deadline", &[3, 9]),
    ("counterparts", &[5, 9]),
    ("issuers_of", &[9]),
    ("claimants", &[9]),
    ("unstamped_departures", &[9]),
    ("reach", &[9]),
    ("rebuilt_by_shard", &[9]),
    ("leaf_for_route", &[15, 16]),
    ("leaves", &[9, 15, 16]),
    ("counterparts_by_tree", &[9, 15, 16]),
    ("snapshot", &[9]),
];

/// One run of the generator, of which every test asks another thing.
static COVERAGE: LazyLock<Coverage> = LazyLock::new(|| {
    let names = Names::all();
    let mut coverage = Coverage::default();
    for index in 0..6000 {
        coverage.run(&script(5, index, &names).text, &mut Vec::new());
    }
    coverage
});

#[test]
fn every_refusal_and_every_exit_comes_up() {
    let coverage = &*COVERAGE;
    for (name, numbers) in REFUSALS {
        for number in numbers {
            assert!(
                coverage.refused(name, *number) > 0,
                "{name} never refused as {number}"
            );
        }
    }
    assert!(
        coverage.exits().iter().all(|count| *count > 20),
        "{coverage}"
    );
}

/// By rule 1 nobody falls, and by rule 4 nobody who has a route without departure.
#[test]
fn every_rule_stands_and_falls_to_its_edge() {
    let coverage = &*COVERAGE;
    for (rule, name) in RULES {
        let judged = coverage.judged(rule);
        assert!(judged.stood > 100, "{name}: {coverage}");
        if matches!(rule, Rule::Unexecuted | Rule::Open) {
            assert_eq!((judged.fell, judged.stood_last), (0, 0), "{name}");
        } else {
            let least = judged.fell.min(judged.stood_last).min(judged.fell_first);
            assert!(least > 20, "{name}: {coverage}");
        }
    }
}

/// By each rule: whether any stand and any fall of whom only at has come, and of whom only end has.
const SIDES: [(Rule, [bool; 4]); 5] = [
    (Rule::Leg, [true, false, true, true]),
    (Rule::Absent, [true, false, true, true]),
    (Rule::Open, [true, false, true, false]),
    (Rule::Departed, [true; 4]),
    (Rule::Deadline, [true, true, true, false]),
];

/// Rule 2 reads end, rule 5 at, and rule 4 neither: nobody falls by rule 2 whose end is to come, nor by rule 5 whose at is.
#[test]
fn at_and_end_lie_on_different_sides_of_the_clock() {
    let coverage = &*COVERAGE;
    for (rule, any) in SIDES {
        let sides = coverage.judged(rule).sides;
        let [at, end, other] = [sides.at_alone, sides.end_alone, sides.otherwise];
        for (count, any) in [at.stood, at.fell, end.stood, end.fell].iter().zip(any) {
            assert!(if any { *count > 20 } else { *count == 0 }, "{coverage}");
        }
        let reads_neither = matches!(rule, Rule::Open | Rule::Departed);
        assert!(
            reads_neither || other.stood.min(other.fell) > 20,
            "{coverage}"
        );
    }
}

#[test]
fn departures_are_chosen_at_every_step() {
    let coverage = &*COVERAGE;
    for (choice, name) in CHOICES {
        assert!(coverage.choices().of(choice) > 20, "{name}: {coverage}");
    }
}

#[test]
fn bundles_come_to_every_edge() {
    let coverage = &*COVERAGE;
    let bundles = coverage.bundles();
    for (size, [accepted, refused]) in bundles.by_size() {
        let too_many = size.starts_with("65");
        assert!(refused > 5, "{size} items: {coverage}");
        assert!(too_many || accepted > 5, "{size} items: {coverage}");
    }
    let counts = bundles.by_kind().chain(bundles.by_answer());
    for (name, bundles) in counts {
        assert!(bundles > 1000, "{name}: {coverage}");
    }
    for (edge, name) in EDGES {
        assert!(bundles.with_edge(edge) > 20, "{name}: {coverage}");
    }
}

#[test]
fn counts_come_to_every_edge() {
    let coverage = &*COVERAGE;
    let counts = coverage.counts();
    for (what, name) in RECORDS {
        assert!(counts.with(what) > 20, "{name}: {coverage}");
    }
    for (how, name) in SUMS {
        assert!(counts.summed(how) > 20, "{name}: {coverage}");
    }
    for (room, name) in ROOMS {
        assert!(counts.with_room(room) > 100, "{name}: {coverage}");
    }
}

/// Trees of every size and depth, routes at every end, every breach, and each uniform tree beside its depth.
#[test]
fn trees_come_to_every_edge() {
    let coverage = &*COVERAGE;
    let trees = coverage.trees();
    for leaves in 1..=LEAVES {
        assert!(trees.with_leaves(leaves) > 50, "{leaves}: {coverage}");
    }
    for height in 0..=LOWEST_LEAF {
        assert!(trees.with_height(height) > 50, "{height}: {coverage}");
    }
    for (why, name) in WHYS {
        assert!(trees.refused(why) > 20, "{name}: {coverage}");
    }
    for (place, name) in PLACES {
        assert!(trees.with_route(place) > 20, "{name}: {coverage}");
    }
    for (met, name) in MET {
        assert!(trees.meeting(met) > 20, "{name}: {coverage}");
    }
    for (room, name) in ROOMS {
        let least = trees.with_room(room).into_iter().min();
        assert!(least > Some(30), "{name}: {coverage}");
    }
    for depth in 0..=UNIFORM {
        assert!(trees.as_by_depth(depth) > 30, "{depth}: {coverage}");
    }
    assert_eq!(trees.different, 0, "{coverage}");
}

/// Each fault alone too: then nothing else in the words refuses them.
#[test]
fn snapshots_come_to_everything() {
    let coverage = &*COVERAGE;
    let snapshots = coverage.snapshots();
    for (room, name) in ROOMS {
        assert!(snapshots.with_room(room) > 300, "{name}: {coverage}");
    }
    for (what, name) in HELD {
        assert!(snapshots.holding(what) > 20, "{name}: {coverage}");
    }
    for (how, name) in BREAKS {
        assert!(snapshots.broken(how) > 20, "{name}: {coverage}");
    }
    assert!(snapshots.broken_without_local() > 5, "{coverage}");
    for (fault, name) in FAULTS {
        let [_, alone] = snapshots.refused(fault);
        assert!(alone > 5, "{name}: {coverage}");
    }
}

#[test]
fn several_prunes_are_set_against_one() {
    let coverage = &*COVERAGE;
    let pairs = coverage.pairs();
    assert_eq!(pairs.different, 0);
    assert!(pairs.equal > 100, "{coverage}");
}

#[test]
fn prunes_are_left_out() {
    let coverage = &*COVERAGE;
    let passing = coverage.left_out().passing;
    assert_eq!(passing.shown, 0);
    assert!(passing.pairs > 50, "{coverage}");
}

#[test]
fn every_limit_is_reached() {
    let coverage = &*COVERAGE;
    for (name, dumps) in coverage.limits().reached() {
        assert!(dumps > 0, "never as many {name} as may be");
    }
}

#[test]
fn a_list_of_names_is_kept_to() {
    let names = Names::listed("register_committed,dump").expect("both are calls");
    for index in 0..500 {
        let made = script(6, index, &names);
        assert!(
            names.cover(&made.text),
            "{}",
            String::from_utf8_lossy(&made.text)
        );
    }
}
