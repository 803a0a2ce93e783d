//! Draws trees as marks, whole ones at the limits and spoilt ones beside them, and what is asked of them.

use reference::{LOWEST_LEAF, MOST_NUMBERS, Remote, TREE_MARKS};

use super::Maker;
use crate::tree::{Leaf, Tree};

/// The most leaves that the marks leave room for.
const LEAVES: usize = TREE_MARKS / 2 + 1;

/// How a tree is grown: the next leaf that is split.
#[derive(Clone, Copy)]
enum Growth {
    Anywhere,
    Left,
    Right,
    Routes,
}

impl Maker<'_> {
    pub(super) fn marks(&mut self) -> Vec<u64> {
        let over = std::mem::take(&mut self.over);
        match self.random.below(20) {
            0..2 if over => self.many(),
            _ if over => self.deep(),
            0..12 => self.tree().marks(),
            12..14 => self.many(),
            14..16 => self.deep(),
            16 => self.ending(),
            17 | 18 => self.with_value(),
            _ => self.several(),
        }
    }

    /// A route, mostly at an end of a leaf or beside it, ahead of the marks.
    pub(super) fn route_and_marks(&mut self) -> Vec<u64> {
        let marks = self.marks();
        let leaf = Tree::read(&marks).ok().map(|tree| self.one_of(&tree));
        let pool = self.random.pick(&self.pools.routes);
        let any = self.random.word();
        let route = match leaf {
            Some(leaf) => {
                let [first, last] = [leaf.first, leaf.last()];
                let beside = [first.wrapping_sub(1), last.wrapping_add(1)];
                let inside = first + any % (last - first).max(1);
                self.random
                    .pick(&[first, last, first, last, beside[0], beside[1], inside, pool])
            }
            None => self.random.pick(&[0, u64::MAX, pool, any]),
        };
        [vec![route], marks].concat()
    }

    fn one_of(&mut self, tree: &Tree) -> Leaf {
        self.random.pick(&tree.0)
    }

    /// A transaction, mostly one that is owed and reaches beyond local, ahead of the marks.
    pub(super) fn transaction_and_marks(&mut self) -> Vec<u64> {
        let beyond = |remote: &Remote| !matches!(remote, Remote::Nowhere);
        let owed = self.tally.owed.iter();
        let reaching: Vec<u64> = owed
            .filter(|(_, entry)| beyond(&entry.remote))
            .map(|(transaction, _)| *transaction)
            .collect();
        let transaction = if !reaching.is_empty() && self.random.percent(75) {
            self.random.pick(&reaching)
        } else {
            self.transaction()
        };
        [vec![transaction], self.marks()].concat()
    }

    /// A tree within the limits: of one depth, one path down, or grown to any number of leaves.
    fn tree(&mut self) -> Tree {
        match self.random.below(10) {
            0 | 1 => Tree::uniform(self.random.below(6) as u32),
            2 => self.path(LOWEST_LEAF),
            3 => {
                let path = self.path(LOWEST_LEAF);
                self.grown(path, LEAVES)
            }
            4 => self.grown(Tree::default(), LEAVES),
            _ => {
                let leaves = self.random.between(1, LEAVES as u64) as usize;
                self.grown(Tree::default(), leaves)
            }
        }
    }

    /// Splits along a route, mostly all the way down.
    fn path(&mut self, lowest: u32) -> Tree {
        let pool = self.random.pick(&self.pools.routes);
        let any = self.random.word();
        let route = self.random.pick(&[0, u64::MAX, pool, any]);
        let short = self.random.between(0, u64::from(lowest)) as u32;
        let mut tree = Tree::default();
        tree.split_along(route, self.random.pick(&[lowest, lowest, short]));
        tree
    }

    /// Splits until there are so many leaves.
    fn grown(&mut self, mut tree: Tree, leaves: usize) -> Tree {
        let growth = self.random.pick(&[
            Growth::Anywhere,
            Growth::Left,
            Growth::Right,
            Growth::Routes,
        ]);
        while tree.0.len() < leaves {
            let open = |place: &usize| tree.0[*place].depth < LOWEST_LEAF;
            let places: Vec<usize> = (0..tree.0.len()).filter(open).collect();
            let any = self.random.pick(&places);
            let place = match growth {
                _ if self.random.percent(30) => any,
                Growth::Anywhere => any,
                Growth::Left => places[0],
                Growth::Right => places[places.len() - 1],
                Growth::Routes => tree.place_of(self.random.pick(&self.pools.routes)),
            };
            let place = if open(&place) { place } else { any };
            tree.split(place);
        }
        tree
    }

    /// More marks than there may be: those of a larger tree, or any; at times another value ahead of all.
    fn many(&mut self) -> Vec<u64> {
        let mut marks = match self.random.below(4) {
            0 => self.grown(Tree::default(), LEAVES + 1).marks(),
            1 => self.grown(Tree::default(), LEAVES).marks(),
            2 => vec![0; TREE_MARKS],
            _ => vec![1; TREE_MARKS],
        };
        let more = self.random.between(1, 40) as usize;
        let most = if self.random.percent(2) {
            MOST_NUMBERS
        } else {
            TREE_MARKS + self.random.pick(&[1, 1, more])
        };
        while marks.len() < most {
            marks.push(self.random.below(2));
        }
        if self.random.percent(30) {
            marks[0] = self.value();
        }
        marks
    }

    /// A split at depth 16, or one further down, in the place of a leaf.
    fn deep(&mut self) -> Vec<u64> {
        let lowest = LOWEST_LEAF + self.random.pick(&[1, 1, 1, 4]);
        let mut tree = self.path(lowest);
        if tree.height() <= LOWEST_LEAF {
            let route = self.one_of(&tree).first;
            tree.split_along(route, LOWEST_LEAF + 1);
        }
        let more = self.random.below(8) as usize;
        let leaves = tree.0.len() + more;
        self.grown(tree, leaves).marks()
    }

    /// Marks that end early or go on.
    fn ending(&mut self) -> Vec<u64> {
        let mut marks = self.tree().marks();
        let all = marks.len();
        match self.random.below(8) {
            0 => marks.clear(),
            1..3 => marks.truncate(all - 1),
            3 | 4 => marks.truncate(self.random.below(all as u64) as usize),
            5 => marks.push(self.value()),
            _ => marks.push(self.random.below(2)),
        }
        marks
    }

    fn value(&mut self) -> u64 {
        let any = self.random.word();
        self.random.pick(&[2, 2, u64::MAX, 1 << 32, 256, any])
    }

    /// Another value somewhere, at times at an end.
    fn with_value(&mut self) -> Vec<u64> {
        let mut marks = self.tree().marks();
        let last = marks.len() - 1;
        let any = self.random.between(0, last as u64) as usize;
        marks[self.random.pick(&[0, last, any, any])] = self.value();
        marks
    }

    /// Two breaches, either ahead of the other: of a split at depth 16, another value, and an early end.
    fn several(&mut self) -> Vec<u64> {
        let mut marks = self.deep();
        let last = marks.len() - 1;
        let any = self.random.between(0, last as u64) as usize;
        match self.random.below(4) {
            0 => marks[any] = self.value(),
            1 => marks[last] = self.value(),
            2 => marks[self.random.below(4) as usize] = self.value(),
            _ => marks.truncate(any.max(LOWEST_LEAF as usize + 1)),
        }
        marks
    }
}
