//! Stand-in for storage: the key of a transaction's committed cell on a shard.

use hyperscale_types::{ShardId, SubstateKey, TxHash, WeightedTimestamp};

pub fn committed_tx_cell_key(
    shard: ShardId,
    tx_hash: TxHash,
    validity_end: WeightedTimestamp,
) -> SubstateKey {
    SubstateKey(tx_hash.0.wrapping_add(validity_end.0).wrapping_add(shard.0))
}
