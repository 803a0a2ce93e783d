//! What a committed block carries: abandonment records and finalizations.

use crate::{ShardId, TxHash, UnsettledTx};

pub struct AbandonmentRecord {
    shard: ShardId,
    unsettled: Vec<UnsettledTx>,
}

impl AbandonmentRecord {
    pub const fn of(shard: ShardId, unsettled: Vec<UnsettledTx>) -> Self {
        Self { shard, unsettled }
    }

    pub const fn shard(&self) -> ShardId {
        self.shard
    }

    pub fn unsettled(&self) -> &[UnsettledTx] {
        &self.unsettled
    }
}

/// The paper's decisions 1, 2 and 3; the last stands for every other.
#[derive(Debug, Clone, Copy, PartialEq, Eq)]
pub enum TransactionDecision {
    Accept,
    Aborted,
    Reject,
}

#[derive(Debug, Clone, Copy, PartialEq, Eq)]
pub enum TxResolution {
    Decided(TransactionDecision),
}

pub struct Finalization {
    decisions: Vec<(TxHash, TransactionDecision)>,
    deciding: Vec<TxHash>,
}

impl Finalization {
    pub const fn of(decisions: Vec<(TxHash, TransactionDecision)>, deciding: Vec<TxHash>) -> Self {
        Self {
            decisions,
            deciding,
        }
    }

    pub fn tx_decisions(&self) -> impl Iterator<Item = (TxHash, TransactionDecision)> {
        self.decisions.iter().copied()
    }

    pub fn deciding_tx_hashes(&self) -> impl Iterator<Item = TxHash> {
        self.deciding.iter().copied()
    }
}
