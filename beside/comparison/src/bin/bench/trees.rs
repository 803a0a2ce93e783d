//! Trees: the leaf of a route, all leaves, and counterparts by a tree beside those by depth on the same ledger.

use comparison::tree::Tree;

use crate::cases::Case;
use crate::full;
use crate::ledgers::{Entry, FULL, departures, departures_on_one_path, line};

/// The same counterparts by depth and by tree, as rows.
pub struct Pair {
    pub when: &'static str,
    pub by_depth: &'static str,
    pub by_tree: &'static str,
}

pub const PAIRS: [Pair; 2] = [
    Pair {
        when: "with four departures over each of eight routes",
        by_depth: "counterparts by depth, 8 routes with 4 departures each",
        by_tree: "counterparts by tree, 8 routes with 4 departures each",
    },
    Pair {
        when: "with eight routes that each of 32 departures owns",
        by_depth: "counterparts by depth, 32 owners of 8 routes",
        by_tree: "counterparts by tree, 32 owners of 8 routes",
    },
];

/// Both ledgers' routes lie in leaves at this depth, so by it the same is listed as by tree.
const DEPTH: u32 = 4;
const LEAVES: usize = 31;

/// Its right half in eight leaves, the last of all; on the left a path down to depth 16, and eight leaves beside it.
fn tree() -> Tree {
    let mut tree = Tree::default();
    tree.split_along(0, 16);
    for eighth in 0..8 {
        tree.split_along((8 + eighth) << 60, DEPTH);
        tree.split_along((8 + eighth) << 59, DEPTH + 1);
    }
    assert_eq!(tree.0.len(), LEAVES);
    tree
}

pub fn cases() -> Vec<Case> {
    let marks = tree().marks();
    let with = |name, word| line(name, &[&[word], &marks[..]].concat());
    let apart = [full::ledger(Entry::whole), departures(4, |_| false)].concat();
    let together = [
        full::ledger(|tx| Entry::whole(tx).reaching_together()),
        departures_on_one_path(),
    ]
    .concat();
    let row = |name, call: String| Case::repeated(name, FULL, &apart, call);
    let mut cases = vec![
        row("leaf for route, at depth 16", with("leaf_for_route", 0)),
        row(
            "leaf for route, the last of 31 leaves",
            with("leaf_for_route", u64::MAX),
        ),
        row("leaves, 31", format!("{} lent 31", line("leaves", &marks))),
    ];
    for (pair, setup) in PAIRS.iter().zip([&apart, &together]) {
        let by_depth = line("counterparts", &[25, u64::from(DEPTH)]);
        let by_tree = with("counterparts_by_tree", 25);
        for (name, call) in [(pair.by_depth, by_depth), (pair.by_tree, by_tree)] {
            let call = format!("{call} lent 40");
            cases.push(Case::repeated(name, FULL, setup, call));
        }
    }
    cases.into_iter().map(Case::pictured).collect()
}
