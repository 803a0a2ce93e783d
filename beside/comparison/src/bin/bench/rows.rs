//! All rows, table by table, and what has to hold of them before they are timed.

use std::path::PathBuf;

use crate::NO_COPY;
use crate::agreement;
use crate::bundles::{self, Bundle};
use crate::cases::Case;
use crate::ledgers::FULL;
use crate::snapshots::{self, Snapshot};
use crate::work::{self, Block};
use crate::{full, levels, trees};

pub struct Rows {
    /// Tables of calls, each behind its title.
    pub groups: [(&'static str, Vec<Case>); 3],
    pub trees: Vec<Case>,
    pub blocks: Vec<Block>,
    pub bundles: Vec<Bundle>,
    pub snapshots: Vec<Snapshot>,
}

impl Rows {
    /// Those whose names have the text in them, or all.
    pub fn asked(text: Option<&str>) -> Self {
        let asked = |case: &Case| text.is_none_or(|text| case.name.contains(text));
        let groups = [
            ("Changing calls", levels::changing()),
            ("Readings", levels::readings()),
            ("A full ledger gone over", full::cases()),
        ];
        Self {
            groups: groups.map(|(title, cases)| (title, only(cases, asked))),
            trees: only(trees::cases(), asked),
            blocks: only(work::blocks().into(), |block| asked(&block.case)),
            bundles: only(bundles::rows(), |bundle| asked(&bundle.case)),
            snapshots: only(snapshots::rows(), |snapshot| asked(&snapshot.case)),
        }
    }

    fn calls(&self) -> impl Iterator<Item = &Case> {
        let groups = self.groups.iter().flat_map(|(_, cases)| cases);
        groups.chain(&self.trees)
    }

    /// Bundles, and snapshots with the calls beside them.
    fn wholes(&self) -> impl Iterator<Item = &Case> {
        let bundles = self.bundles.iter().map(|bundle| &bundle.case);
        let snapshots = self.snapshots.iter();
        bundles.chain(snapshots.flat_map(|row| [&row.case].into_iter().chain(&row.calls)))
    }

    pub fn check(&self, programs: &[PathBuf; 2]) -> Result<(), String> {
        let blocks = self.blocks.iter().map(|block| &block.case);
        let all = self.calls().chain(blocks).chain(self.wholes());
        agreement::check(programs, &[], all)?;
        let undone = self.bundles.iter().filter(|bundle| !bundle.refused);
        agreement::check(programs, &NO_COPY, undone.map(|bundle| &bundle.case))?;
        for snapshot in &self.snapshots {
            if let Some(calls) = &snapshot.calls {
                agreement::same_ledger(programs, calls, &snapshot.case)?;
            }
        }
        Ok(())
    }

    /// A script of all calls, on full ledgers where they are called singly.
    pub fn script(&self) -> Result<String, String> {
        let full = self.calls().filter(|case| case.entries == FULL);
        agreement::all_calls(full.chain(self.wholes()))
    }
}

fn only<T>(mut rows: Vec<T>, asked: impl Fn(&T) -> bool) -> Vec<T> {
    rows.retain(asked);
    rows
}
