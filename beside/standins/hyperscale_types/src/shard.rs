//! Shards, routes and the trie, whose leaves lie at one depth or as a tree has them.

/// A path in the trie with a one bit in front: 1 is the root.
#[derive(Debug, Clone, Copy, PartialEq, Eq, PartialOrd, Ord)]
pub struct ShardId(pub u64);

impl ShardId {
    pub const ROOT: Self = Self(1);

    /// The place of the highest one bit.
    pub const fn depth(self) -> u32 {
        63 - self.0.leading_zeros()
    }

    /// The left half of this shard's routes, and the right one.
    pub const fn halves(self) -> [Self; 2] {
        [Self(2 * self.0), Self(2 * self.0 + 1)]
    }

    /// The lowest route that it owns: its path, and zeros behind it.
    const fn first_route(self) -> u64 {
        let depth = self.depth();
        if depth == 0 {
            0
        } else {
            self.0 << (64 - depth)
        }
    }
}

#[derive(Debug, Clone, Copy, PartialEq, Eq)]
pub struct RoutePrefix(pub u64);

impl RoutePrefix {
    /// The leading `depth` bits; a shift by 64 is not defined, so depth 0 stands apart.
    const fn top(self, depth: u32) -> u64 {
        if depth == 0 {
            0
        } else {
            self.0 >> (64 - depth)
        }
    }
}

/// Which shard has a route.
pub enum ShardTrie {
    /// All leaves lie at this depth.
    Uniform(u32),
    /// The leaves from left to right, so by rising routes: each with the first that it has.
    Tree(Vec<(u64, ShardId)>),
}

impl ShardTrie {
    /// The trie of these leaves, which part all routes and come from left to right.
    pub fn of_leaves(leaves: impl IntoIterator<Item = ShardId>) -> Self {
        let leaves = leaves.into_iter();
        Self::Tree(leaves.map(|leaf| (leaf.first_route(), leaf)).collect())
    }

    pub const fn shard_owns_route(shard: ShardId, route: RoutePrefix) -> bool {
        let depth = shard.depth();
        route.top(depth) == shard.0 - (1 << depth)
    }

    /// In a tree the last leaf that begins at the route or before it.
    pub fn shard_for_route(&self, route: RoutePrefix) -> ShardId {
        match self {
            Self::Uniform(depth) => ShardId((1 << depth) + route.top(*depth)),
            Self::Tree(leaves) => {
                let begun = leaves.partition_point(|(first, _)| *first <= route.0);
                leaves[begun - 1].1
            }
        }
    }
}
