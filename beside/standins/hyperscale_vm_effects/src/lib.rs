//! Stand-in for crossings: an id is one word, an edge goes from one shard to several.

use std::collections::BTreeSet;

use hyperscale_vm_types::{ProtocolHasher, SubstateKey};

/// A record's key is its crossing's id modulo this, so that two ids can share one key.
const RECORD_KEYS: u64 = 1 << 32;

#[derive(Debug, Clone, Copy, PartialEq, Eq)]
pub struct CrossingId(pub u64);

impl CrossingId {
    pub fn record_key(&self, _hasher: &ProtocolHasher) -> SubstateKey {
        SubstateKey(self.0 % RECORD_KEYS)
    }
}

/// The paper's kinds: 1 is owed, 0 is any other.
#[derive(Debug, Clone, Copy, PartialEq, Eq)]
pub enum Kind {
    Escrowed,
    Owed,
}

#[derive(Debug, Clone, Copy, PartialEq, Eq)]
pub struct Crossing {
    pub id: CrossingId,
    pub kind: Kind,
}

#[derive(Debug, Clone, PartialEq, Eq)]
pub struct CrossingEdge<S> {
    pub from: S,
    pub to: BTreeSet<S>,
    pub crossing: Crossing,
}
