//! A tree as marks in pre-order: 1 is a split into two halves, the left one first, and 0 is a leaf.

use hyperscale_types::ShardId;

use crate::refusals::{LOWEST_LEAF, NO_TREE, TREE_MARKS, TREE_OVER, unless};

/// The leaves from left to right, or the first breach. What is to come lies on a stack, the next shard on top: a split puts its halves there.
pub fn leaves(marks: &[u64]) -> Result<Vec<ShardId>, u64> {
    unless(marks.len() <= TREE_MARKS, TREE_OVER)?;
    let mut marks = marks.iter();
    let mut to_come = vec![ShardId::ROOT];
    let mut leaves = Vec::new();
    while let Some(shard) = to_come.pop() {
        match marks.next() {
            Some(0) => leaves.push(shard),
            Some(1) => {
                unless(shard.depth() < LOWEST_LEAF, TREE_OVER)?;
                let [left, right] = shard.halves();
                to_come.extend([right, left]);
            }
            _ => return Err(NO_TREE),
        }
    }
    unless(marks.next().is_none(), NO_TREE)?;
    Ok(leaves)
}
