//! What a frozen transaction says of its core and its edges, with legs.rs's names.

use std::collections::BTreeSet;

use hyperscale_types::{PriceTable, Quanta, ShardId, Transaction};
use hyperscale_vm_effects::CrossingEdge as StarEdge;

pub type CrossingEdge = StarEdge<ShardId>;

#[derive(Debug, Clone, PartialEq, Eq)]
pub struct Classified {
    decomposed: bool,
    core: BTreeSet<ShardId>,
    edges: Vec<CrossingEdge>,
}

impl Classified {
    pub const fn of(decomposed: bool, core: BTreeSet<ShardId>, edges: Vec<CrossingEdge>) -> Self {
        Self {
            decomposed,
            core,
            edges,
        }
    }

    pub const fn decomposed(&self) -> bool {
        self.decomposed
    }

    pub const fn core(&self) -> &BTreeSet<ShardId> {
        &self.core
    }

    pub fn edges(&self) -> &[CrossingEdge] {
        if self.decomposed { &self.edges } else { &[] }
    }

    /// Each edge beside its consumer's home. No consumer is stood in for, so the home is
    /// the root, which legs.rs gives for a node without one; ledger.rs never reads it.
    pub fn crossings(&self) -> impl Iterator<Item = (&CrossingEdge, ShardId)> {
        self.edges().iter().map(|edge| (edge, ShardId::ROOT))
    }

    pub fn local_price(&self, _tx: &Transaction, _shard: ShardId, _table: &PriceTable) -> Quanta {
        Quanta
    }
}
