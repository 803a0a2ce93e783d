//! Counts how trees went: which were accepted, why others were not, where the routes lay whose leaf was asked for, and which counterparts were found.

use std::fmt;

use reference::{Book, FILLER, Given, LOWEST_LEAF, Reply, TREE_MARKS, call_named};

use crate::apart::owns;
use crate::snapshots::{ROOMS, Room};
use crate::tree::{Breach, Leaf, Tree};

/// The most leaves, and the deepest uniform tree.
pub const LEAVES: usize = TREE_MARKS / 2 + 1;
pub const UNIFORM: usize = 5;

const LARGEST: u64 = u64::MAX;
/// Where the rightmost place at depth 16 begins.
const RIGHTMOST: u64 = LARGEST << (64 - LOWEST_LEAF);
/// Deeper than any leaf that the marks of a line reach for, but for some that are all splits.
const ANY_DEPTH: u32 = 63;

/// Why marks were refused.
#[derive(Clone, Copy)]
pub enum Why {
    NoMark,
    Early,
    Late,
    LateValue,
    All,
    First,
    Last,
    Two,
    Largest,
    ValueFirst,
    ValueHere,
    OneOver,
    Over,
    OverValue,
    OverTree,
    Left,
    Right,
    Between,
    DeepFirst,
    DeepEarly,
}

pub const WHYS: [(Why, &str); 20] = [
    (Why::NoMark, "15, no mark"),
    (Why::Early, "15, they end early"),
    (Why::Late, "15, a 0 or 1 behind the tree"),
    (Why::LateValue, "15, another value behind it"),
    (Why::All, "15, 63 marks"),
    (Why::First, "15, another value first of all"),
    (Why::Last, "15, another value last of all"),
    (Why::Two, "15, a 2"),
    (Why::Largest, "15, a 2^64 - 1"),
    (Why::ValueFirst, "15, and a split at 16 behind it"),
    (Why::ValueHere, "15, a value at depth 16"),
    (Why::OneOver, "16, 64 marks"),
    (Why::Over, "16, 65 and more"),
    (Why::OverValue, "16, too many, another value first"),
    (Why::OverTree, "16, too many, of a tree else"),
    (Why::Left, "16, a split at 16 furthest left"),
    (Why::Right, "16, a split at 16 furthest right"),
    (Why::Between, "16, a split at 16 between them"),
    (Why::DeepFirst, "16, and another value behind it"),
    (Why::DeepEarly, "16, and they end early"),
];

/// Where a route lay whose leaf was asked for.
#[derive(Clone, Copy)]
pub enum Place {
    First,
    Last,
    Inside,
    Root,
    Lowest,
    LowestFirst,
    LowestLast,
}

pub const PLACES: [(Place, &str); 7] = [
    (Place::First, "the first of its leaf"),
    (Place::Last, "the last of its leaf"),
    (Place::Inside, "between them"),
    (Place::Root, "in the only leaf"),
    (Place::Lowest, "in a leaf at depth 16"),
    (Place::LowestFirst, "the first of one at depth 16"),
    (Place::LowestLast, "the last of one at depth 16"),
];

/// What counterparts by tree came upon.
#[derive(Clone, Copy)]
pub enum Met {
    Unowed,
    UnowedRefused,
    Nowhere,
    Remote,
    Departed,
    Same,
    Shared,
    AroundLocal,
    OtherThanDepth,
}

pub const MET: [(Met, &str); 9] = [
    (Met::Unowed, "not owed"),
    (Met::UnowedRefused, "not owed, and refused by 15 or 16"),
    (Met::Nowhere, "owed, no remote route"),
    (Met::Remote, "leaves of remote routes alone"),
    (Met::Departed, "departed shards besides"),
    (Met::Same, "a leaf that is departed"),
    (Met::Shared, "a leaf of two remote routes"),
    (Met::AroundLocal, "a leaf around local"),
    (Met::OtherThanDepth, "leaves of two depths"),
];

#[derive(Default)]
pub struct Trees {
    leaves: [u64; LEAVES],
    heights: [u64; LOWEST_LEAF as usize + 1],
    whys: [u64; WHYS.len()],
    places: [u64; PLACES.len()],
    met: [u64; MET.len()],
    /// By call with a list, `leaves` and `counterparts_by_tree`.
    rooms: [[u64; ROOMS.len()]; 2],
    /// By depth, how often counterparts by a uniform tree were those by its depth; and how often not.
    alike: [u64; UNIFORM + 1],
    pub different: u64,
}

impl Trees {
    /// How many accepted trees had so many leaves.
    pub fn with_leaves(&self, leaves: usize) -> u64 {
        self.leaves[leaves - 1]
    }

    /// How many accepted trees had their deepest leaf there.
    pub fn with_height(&self, height: u32) -> u64 {
        self.heights[height as usize]
    }

    pub fn refused(&self, why: Why) -> u64 {
        self.whys[why as usize]
    }

    pub fn with_route(&self, place: Place) -> u64 {
        self.places[place as usize]
    }

    pub fn meeting(&self, met: Met) -> u64 {
        self.met[met as usize]
    }

    pub fn with_room(&self, room: Room) -> [u64; 2] {
        self.rooms.map(|rooms| rooms[room as usize])
    }

    pub fn as_by_depth(&self, depth: usize) -> u64 {
        self.alike[depth]
    }

    /// Count a call that takes a tree.
    pub fn count(&mut self, numbers: &[u64], reply: &Reply, book: &Book) {
        let marks = match reply.call.name {
            "leaves" => numbers,
            _ => &numbers[1..],
        };
        let unowed = || !book.owes(numbers[0]);
        let by_tree = reply.call.name == "counterparts_by_tree";
        let tree = match Tree::read(marks) {
            Ok(tree) => tree,
            Err(breach) => {
                count(&mut self.whys, &whys(marks, breach));
                self.met[Met::UnowedRefused as usize] += u64::from(by_tree && unowed());
                return;
            }
        };
        self.leaves[tree.0.len() - 1] += 1;
        self.heights[tree.height() as usize] += 1;
        match reply.call.name {
            "leaf_for_route" => count(&mut self.places, &places(&tree, numbers[0])),
            "leaves" => self.room(0, reply, tree.0.len()),
            _ => self.counterparts(&tree, numbers[0], reply, book),
        }
    }

    fn room(&mut self, call: usize, reply: &Reply, needed: usize) {
        let room = Room::of(reply, needed);
        self.rooms[call][room as usize] += 1;
    }

    fn counterparts(&mut self, tree: &Tree, transaction: u64, reply: &Reply, book: &Book) {
        let found = Found::of(tree, transaction, book);
        count(&mut self.met, &found.met(tree, book, transaction));
        let listed = found.all();
        if !listed.is_empty() {
            self.room(1, reply, listed.len());
        }
        if let Some(depth) = tree.uniform_depth() {
            if is_by_depth(transaction, depth, reply, book) {
                self.alike[depth as usize] += 1;
            } else {
                self.different += 1;
            }
        }
    }
}

fn count<const N: usize>(counts: &mut [u64; N], came: &[bool; N]) {
    for (count, came) in counts.iter_mut().zip(came) {
        *count += u64::from(*came);
    }
}

/// Whether each of `WHYS` holds of marks with that first breach, at its place.
fn whys(marks: &[u64], (place, breach): (usize, Breach)) -> [bool; WHYS.len()] {
    let is = |one: Breach| breach == one;
    let (many, value, deep) = (is(Breach::Many), is(Breach::Value), is(Breach::Deep));
    let mark = marks.get(place).copied().unwrap_or(0);
    let last = marks.len().saturating_sub(1);
    let behind = || marks.iter().skip(place + 1);
    let further = |marks: &[u64], lowest| Tree::of_any(marks, lowest).err().map(|found| found.1);
    let mended = || {
        let mut marks = marks.to_vec();
        marks[place] = 1;
        further(&marks, LOWEST_LEAF)
    };
    let route = || route_at(&marks[..place]);
    WHYS.map(|(why, _)| match why {
        Why::NoMark => marks.is_empty(),
        Why::Early => is(Breach::Early) && !marks.is_empty(),
        Why::Late => is(Breach::Late) && mark < 2,
        Why::LateValue => is(Breach::Late) && mark > 1,
        Why::All => breach.number() == 15 && marks.len() == TREE_MARKS,
        Why::First => value && place == 0,
        Why::Last => value && place == last,
        Why::Two => value && mark == 2,
        Why::Largest => value && mark == LARGEST,
        Why::ValueFirst => value && mended() == Some(Breach::Deep),
        Why::ValueHere => value && depth_before(marks, place) == LOWEST_LEAF,
        Why::OneOver => many && marks.len() == TREE_MARKS + 1,
        Why::Over => many && marks.len() > TREE_MARKS + 1,
        Why::OverValue => many && mark > 1,
        Why::OverTree => many && further(marks, LOWEST_LEAF).is_none(),
        Why::Left => deep && route() == 0,
        Why::Right => deep && route() == RIGHTMOST,
        Why::Between => deep && !matches!(route(), 0 | RIGHTMOST),
        Why::DeepFirst => deep && behind().any(|mark| *mark > 1),
        Why::DeepEarly => deep && further(marks, ANY_DEPTH) == Some(Breach::Early),
    })
}

/// The first route of the place that is next behind these marks, and how deep it lies: as a leaf there, and leaves behind it.
fn next_leaf(marks: &[u64]) -> Option<Leaf> {
    let begun = marks.iter().filter(|mark| **mark == 0).count();
    let mut marks = marks.to_vec();
    loop {
        marks.push(0);
        match Tree::of_any(&marks, ANY_DEPTH) {
            Ok(tree) => return Some(tree.0[begun]),
            Err((_, Breach::Early)) => {}
            Err(_) => return None,
        }
    }
}

fn route_at(marks: &[u64]) -> u64 {
    next_leaf(marks).map_or(0, |leaf| leaf.first)
}

fn depth_before(marks: &[u64], place: usize) -> u32 {
    next_leaf(&marks[..place]).map_or(0, |leaf| leaf.depth)
}

/// Whether each of `PLACES` holds of a route.
fn places(tree: &Tree, route: u64) -> [bool; PLACES.len()] {
    let leaf = tree.leaf_of(route);
    let [first, last] = [leaf.first, leaf.last()].map(|end| end == route);
    let lowest = leaf.depth == LOWEST_LEAF;
    PLACES.map(|(place, _)| match place {
        Place::First => first,
        Place::Last => last,
        Place::Inside => !first && !last,
        Place::Root => leaf.depth == 0,
        Place::Lowest => lowest,
        Place::LowestFirst => lowest && first,
        Place::LowestLast => lowest && last,
    })
}

/// The counterparts of a transaction by a tree, found anew: a leaf for each remote route, and the departed shards over one.
pub struct Found {
    leaves: Vec<u64>,
    departed: Vec<u64>,
}

impl Found {
    pub fn of(tree: &Tree, transaction: u64, book: &Book) -> Self {
        let held = book.held();
        let mut entries = held.entries.iter();
        let entry = entries.find(|entry| entry.transaction == transaction);
        let remote = |route: &&u64| !owns(held.local, **route);
        let routes: Vec<u64> = entry
            .map(|entry| entry.routes.iter().filter(remote).copied().collect())
            .unwrap_or_default();
        let anchor = entry.map_or(0, |entry| entry.anchor);
        let over = held.departures.iter().filter(|departure| {
            let owned = routes.iter().any(|route| owns(departure.shard, *route));
            owned && departure.cut > anchor
        });
        Self {
            leaves: routes.iter().map(|r| tree.leaf_of(*r).shard()).collect(),
            departed: over.map(|departure| departure.shard).collect(),
        }
    }

    /// Each once, rising.
    pub fn all(&self) -> Vec<u64> {
        let mut all = [&self.leaves[..], &self.departed].concat();
        all.sort_unstable();
        all.dedup();
        all
    }

    /// Whether each of `MET` holds.
    fn met(&self, tree: &Tree, book: &Book, transaction: u64) -> [bool; MET.len()] {
        let local = book.held().local;
        let some = !self.leaves.is_empty();
        let mut once = self.leaves.clone();
        once.sort_unstable();
        once.dedup();
        let mut departed = self.departed.iter();
        let same = departed.any(|shard| once.contains(shard));
        let deeper = |shard: &u64| {
            shard.ilog2() < local.ilog2() && local >> (local.ilog2() - shard.ilog2()) == *shard
        };
        MET.map(|(met, _)| match met {
            Met::Unowed => !book.owes(transaction),
            Met::UnowedRefused => false,
            Met::Nowhere => book.owes(transaction) && !some,
            Met::Remote => some && self.departed.is_empty(),
            Met::Departed => some && !self.departed.is_empty(),
            Met::Same => same,
            Met::Shared => once.len() < self.leaves.len(),
            Met::AroundLocal => once.iter().any(deeper),
            Met::OtherThanDepth => {
                some && tree.uniform_depth().is_none()
                    && once.iter().any(|s| s.ilog2() != once[0].ilog2())
            }
        })
    }
}

/// Whether the call by depth, with such a list, says and writes what the one by tree did.
fn is_by_depth(transaction: u64, depth: u32, reply: &Reply, book: &Book) -> bool {
    let mut lent = vec![FILLER; reply.lent.len()];
    let mut said = Vec::new();
    let given = Given {
        numbers: &[transaction, u64::from(depth)],
        lent: &mut lent,
        said: &mut said,
    };
    let call = call_named(b"counterparts").expect("a call of the table");
    let status = call.make(&mut book.clone(), given).err().unwrap_or(0);
    (status, &said, &lent) == (reply.status, &reply.said, &reply.lent)
}

impl fmt::Display for Trees {
    fn fmt(&self, f: &mut fmt::Formatter) -> fmt::Result {
        write!(f, "trees accepted, by leaves from 1 to {LEAVES}:")?;
        for (place, count) in self.leaves.iter().enumerate() {
            let parted = if place % 16 == 0 { "\n" } else { "" };
            write!(f, "{parted} {count:>6}")?;
        }
        write!(
            f,
            "\ntrees accepted, by the depth of the deepest leaf from 0 to {LOWEST_LEAF}:\n"
        )?;
        for count in self.heights {
            write!(f, " {count:>6}")?;
        }
        write!(f, "\ntrees refused:")?;
        for (why, name) in WHYS {
            write!(f, "\n{name:<34} {:>7}", self.refused(why))?;
        }
        write!(f, "\nroutes whose leaf was asked for:")?;
        for (place, name) in PLACES {
            write!(f, "\n{name:<34} {:>7}", self.with_route(place))?;
        }
        self.show_counterparts(f)
    }
}

impl Trees {
    fn show_counterparts(&self, f: &mut fmt::Formatter) -> fmt::Result {
        write!(f, "\ncounterparts by tree:")?;
        for (met, name) in MET {
            write!(f, "\n{name:<34} {:>7}", self.meeting(met))?;
        }
        write!(
            f,
            "\nlists of leaves, and of counterparts by tree where there are any:"
        )?;
        for (room, name) in ROOMS {
            let [leaves, counterparts] = self.with_room(room);
            write!(f, "\n{name:<34} {leaves:>7} {counterparts:>7}")?;
        }
        write!(
            f,
            "\nuniform trees set against their depth, from 0 to {UNIFORM}:"
        )?;
        for count in self.alike {
            write!(f, " {count}")?;
        }
        write!(f, " alike, {} not", self.different)
    }
}
