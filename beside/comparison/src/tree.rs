//! Trees by the routes that their leaves part: how one is grown, its marks, and marks read anew by where the routes go on.

use reference::{LOWEST_LEAF, TREE_MARKS};

/// One behind the last route.
const END: u128 = 1 << 64;

/// A leaf, by its first route and its depth.
#[derive(Clone, Copy, PartialEq, Debug)]
pub struct Leaf {
    pub first: u64,
    pub depth: u32,
}

impl Leaf {
    const ROOT: Self = Self { first: 0, depth: 0 };

    fn behind(self) -> u128 {
        u128::from(self.first) + (END >> self.depth)
    }

    pub fn last(self) -> u64 {
        (self.behind() - 1) as u64
    }

    pub fn has(self, route: u64) -> bool {
        (self.first..=self.last()).contains(&route)
    }

    pub fn shard(self) -> u64 {
        (1 << self.depth) + (u128::from(self.first) >> (64 - self.depth)) as u64
    }

    fn halves(self) -> [Self; 2] {
        let depth = self.depth + 1;
        let middle = (u128::from(self.first) + (END >> depth)) as u64;
        [self.first, middle].map(|first| Self { first, depth })
    }
}

/// The depth of the place that goes on at a route: right halves begin there, and of these the widest comes next.
fn depth_at(route: u128) -> u32 {
    if route == 0 {
        0
    } else {
        64 - route.trailing_zeros()
    }
}

/// Why marks are refused, the first breach from the left behind their number.
#[derive(Clone, Copy, PartialEq, Debug)]
pub enum Breach {
    Many,
    Early,
    Late,
    Value,
    Deep,
}

impl Breach {
    pub fn number(self) -> u64 {
        match self {
            Self::Many | Self::Deep => 16,
            Self::Early | Self::Late | Self::Value => 15,
        }
    }
}

/// A tree, by its leaves from left to right.
#[derive(Clone, PartialEq, Debug)]
pub struct Tree(pub Vec<Leaf>);

impl Default for Tree {
    fn default() -> Self {
        Self(vec![Leaf::ROOT])
    }
}

impl Tree {
    /// The tree of the marks, or the place and the kind of the first breach.
    pub fn read(marks: &[u64]) -> Result<Self, (usize, Breach)> {
        if marks.len() > TREE_MARKS {
            return Err((0, Breach::Many));
        }
        Self::of_any(marks, LOWEST_LEAF)
    }

    /// The same of any number of marks, with leaves down to a depth.
    pub fn of_any(marks: &[u64], lowest: u32) -> Result<Self, (usize, Breach)> {
        let mut leaves = Vec::new();
        let (mut parted, mut depth) = (0, 0);
        for (place, mark) in marks.iter().enumerate() {
            match mark {
                _ if parted == END => return Err((place, Breach::Late)),
                0 => {
                    let first = parted as u64;
                    let leaf = Leaf { first, depth };
                    leaves.push(leaf);
                    parted = leaf.behind();
                    depth = depth_at(parted);
                }
                1 if depth == lowest => return Err((place, Breach::Deep)),
                1 => depth += 1,
                _ => return Err((place, Breach::Value)),
            }
        }
        if parted < END {
            return Err((marks.len(), Breach::Early));
        }
        Ok(Self(leaves))
    }

    pub fn uniform(depth: u32) -> Self {
        let mut tree = Self::default();
        for _ in 0..depth {
            tree = Self(tree.0.into_iter().flat_map(Leaf::halves).collect());
        }
        tree
    }

    /// Split whatever leaf has the route, down to a depth.
    pub fn split_along(&mut self, route: u64, depth: u32) {
        while self.0[self.place_of(route)].depth < depth {
            self.split(self.place_of(route));
        }
    }

    pub fn split(&mut self, place: usize) {
        self.0.splice(place..=place, self.0[place].halves());
    }

    pub fn place_of(&self, route: u64) -> usize {
        let has = |leaf: &Leaf| leaf.has(route);
        self.0.iter().position(has).expect("leaves part all routes")
    }

    pub fn leaf_of(&self, route: u64) -> Leaf {
        self.0[self.place_of(route)]
    }

    pub fn shards(&self) -> Vec<u64> {
        self.0.iter().map(|leaf| leaf.shard()).collect()
    }

    pub fn height(&self) -> u32 {
        self.0.iter().map(|leaf| leaf.depth).max().unwrap_or(0)
    }

    /// Its depth if all leaves have the same.
    pub fn uniform_depth(&self) -> Option<u32> {
        let depth = self.height();
        self.0
            .iter()
            .all(|leaf| leaf.depth == depth)
            .then_some(depth)
    }

    /// A split for each depth that lies between where a leaf begins and the leaf.
    pub fn marks(&self) -> Vec<u64> {
        let mut marks = Vec::new();
        for leaf in &self.0 {
            let from = depth_at(u128::from(leaf.first));
            marks.extend((from..leaf.depth).map(|_| 1));
            marks.push(0);
        }
        marks
    }
}
