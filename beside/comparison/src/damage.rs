//! Changes a snapshot that a ledger wrote: its form, one thing in it that is then never written, or no more than its content.

mod aims;
mod filling;
mod tearing;

pub use tearing::tear;

use crate::image::{Edge, Entry, Image};
use crate::random::Random;
use aims::AIMS;
use filling::{fill_counts, fill_entry, fill_table};

const WHOLE: u64 = 0;
const LEG: u64 = 1;
const CORE_MEMBER: u64 = 2;
const REMAINDER: u64 = 3;

/// How often an aim is drawn anew that finds nothing to change.
const TRIES: usize = 20;

/// Changes one thing of a snapshot; none where it has no such thing.
type Aim = fn(&mut Random, &mut Image) -> Option<()>;

/// Break one rule about what is written; the form stays whole.
pub fn aim(random: &mut Random, words: &[u64]) -> Vec<u64> {
    changed(random, words, &AIMS)
}

/// Bring a size to its limit, or one over it, with everything else as that size has it.
pub fn fill(random: &mut Random, words: &[u64]) -> Vec<u64> {
    changed(
        random,
        words,
        &[fill_entry, fill_entry, fill_entry, fill_table, fill_counts],
    )
}

/// Other figures of the same kind, mostly counts about their ends.
pub fn alter(random: &mut Random, words: &[u64]) -> Vec<u64> {
    changed(random, words, &[count, count, sum, certified])
}

fn changed(random: &mut Random, words: &[u64], aims: &[Aim]) -> Vec<u64> {
    let Some(mut image) = Image::of(words) else {
        return words.to_vec();
    };
    let _ = (0..TRIES).any(|_| random.pick(aims)(random, &mut image).is_some());
    image.words()
}

/// A count about its end; local's where there is none.
fn count(random: &mut Random, image: &mut Image) -> Option<()> {
    let few = random.below(6);
    let end = random.pick(&[u64::MAX, u64::MAX - 1, u64::MAX - few, 1]);
    counted(random, image)[1] = end;
    Some(())
}

/// Two counts of which none is at its end, but their sum about it.
fn sum(random: &mut Random, image: &mut Image) -> Option<()> {
    let half = 1 << 63;
    counted(random, image)[1] = half;
    let others = image.counts.iter_mut().filter(|pair| pair[1] != half);
    any(random, others)?[1] = half - random.below(4);
    Some(())
}

/// Any count, which is local's first where there is none.
fn counted<'a>(random: &mut Random, image: &'a mut Image) -> &'a mut [u64; 2] {
    if image.counts.is_empty() {
        image.counts.push([image.head[0], 1]);
    }
    any(random, image.counts.iter_mut()).expect("there is one")
}

/// A code that is one.
fn certified(random: &mut Random, image: &mut Image) -> Option<()> {
    entry(random, image, |_| true)?.certificate = random.below(3);
    Some(())
}

/// Any entry that is as asked for.
fn entry<'a>(
    random: &mut Random,
    image: &'a mut Image,
    fits: impl Fn(&Entry) -> bool,
) -> Option<&'a mut Entry> {
    any(random, image.entries.iter_mut().filter(|one| fits(one)))
}

/// An entry that is no whole one.
fn divided<'a>(random: &mut Random, image: &'a mut Image) -> Option<&'a mut Entry> {
    entry(random, image, |one| one.part != WHOLE)
}

/// A leg or a remainder.
fn settling<'a>(random: &mut Random, image: &'a mut Image) -> Option<&'a mut Entry> {
    entry(random, image, |one| matches!(one.part, LEG | REMAINDER))
}

/// An edge, mostly one that local did not issue, so that no mark hangs on it.
fn edge<'a>(random: &mut Random, image: &'a mut Image) -> Option<&'a mut Edge> {
    let local = image.head[0];
    let any_of_all = random.percent(20);
    let edges = image.entries.iter_mut().flat_map(|one| &mut one.edges);
    any(
        random,
        edges.filter(|edge| any_of_all || edge.from != local),
    )
}

fn departure<'a>(
    random: &mut Random,
    image: &'a mut Image,
    stamped: u64,
) -> Option<&'a mut [u64; 4]> {
    let departures = image.departures.iter_mut();
    any(random, departures.filter(|one| one[2] == stamped))
}

fn any<'a, T>(random: &mut Random, items: impl Iterator<Item = &'a mut T>) -> Option<&'a mut T> {
    let mut items: Vec<&mut T> = items.collect();
    let last = items.len().checked_sub(1)? as u64;
    Some(items.swap_remove(random.between(0, last) as usize))
}
