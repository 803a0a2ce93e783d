//! Stand-in for the protocol's types, each a word or a few, as the paper gives them.

mod block;
mod shard;
mod time;
mod transaction;
mod trust;

pub use block::{AbandonmentRecord, Finalization, TransactionDecision, TxResolution};
pub use hyperscale_vm_types::{PriceTable, Quanta, SubstateKey};
pub use shard::{RoutePrefix, ShardId, ShardTrie};
pub use time::{Deadline, MAX_VALIDITY_RANGE, Spans, WeightedTimestamp, Window};
pub use transaction::{
    AbortCharge, CommittedAt, Inclusion, Issuer, Transaction, TxHash, UnsettledTx, ValidityRange,
};
pub use trust::{Verifiable, Verified};
