//! A transaction and what abandoning it states.

use crate::{Deadline, PriceTable, Quanta, RoutePrefix, ShardId, WeightedTimestamp};

#[derive(Debug, Clone, Copy, PartialEq, Eq, PartialOrd, Ord)]
pub struct TxHash(pub u64);

#[derive(Debug, Clone, Copy, PartialEq, Eq)]
pub struct AbortCharge(pub u64);

/// The committing block, of which only the anchor is read.
#[derive(Debug, Clone, Copy, PartialEq, Eq)]
pub struct CommittedAt {
    pub anchor: WeightedTimestamp,
}

pub struct ValidityRange {
    pub end_timestamp_exclusive: WeightedTimestamp,
}

/// A body: what an admission's words say beside its classification and its block.
#[derive(Debug, Clone, PartialEq, Eq)]
pub struct Transaction {
    pub tx_hash: TxHash,
    pub deadline: Deadline,
    pub charge: AbortCharge,
    pub reach: Vec<RoutePrefix>,
}

impl Transaction {
    pub const fn hash(&self) -> TxHash {
        self.tx_hash
    }

    pub const fn validity_range(&self) -> ValidityRange {
        ValidityRange {
            end_timestamp_exclusive: self.deadline.validity_end(),
        }
    }
}

#[derive(Debug, Clone, PartialEq, Eq)]
pub struct UnsettledTx {
    pub tx_hash: TxHash,
    pub deadline: Deadline,
    pub committed: CommittedAt,
    pub charge: AbortCharge,
    pub reach: Vec<RoutePrefix>,
}

impl UnsettledTx {
    pub fn for_transaction(
        tx: &Transaction,
        committed: CommittedAt,
        _price: Quanta,
        _prices: &PriceTable,
    ) -> Self {
        Self {
            tx_hash: tx.tx_hash,
            deadline: tx.deadline,
            committed,
            charge: tx.charge,
            reach: tx.reach.clone(),
        }
    }

    /// Asked only by `party_to_entry`, which the paper leaves out.
    pub fn party(
        &self,
        _local: ShardId,
        _shard: ShardId,
        _cut: WeightedTimestamp,
        _departures: &[(ShardId, WeightedTimestamp)],
    ) -> bool {
        unreachable!("no call of the paper asks who was party to an entry")
    }
}

/// Who an answer to a record derives from.
pub struct Issuer {
    pub tx: TxHash,
    pub validity_end_ms: u64,
}

#[derive(Debug, Clone, Copy, PartialEq, Eq)]
pub enum Inclusion {
    Absent,
    Present,
}
