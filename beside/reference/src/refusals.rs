//! The paper's refusal numbers, its limits, and the checks that read no ledger.

pub const NO_SHARD_TO_MAKE: u64 = 1;
pub const NO_SPAN: u64 = 2;
pub const NO_TIME: u64 = 3;
pub const NO_SHARD: u64 = 4;
pub const BAD_WORDS: u64 = 5;
pub const ENTRIES_FULL: u64 = 6;
pub const ABSENCES_FULL: u64 = 7;
pub const DEPARTURES_FULL: u64 = 8;
pub const LIST_SHORT: u64 = 9;
pub const NO_KIND: u64 = 10;
pub const BAD_BUNDLE: u64 = 11;
pub const BAD_FORM: u64 = 12;
pub const NEVER_WRITTEN: u64 = 13;
pub const COUNTS_FULL: u64 = 14;
pub const NO_TREE: u64 = 15;
pub const TREE_OVER: u64 = 16;

pub const LAST_TIME: u64 = (1 << 48) - 1;
pub const LAST_SHARD: u64 = (1 << 33) - 1;
pub const LONGEST_SPAN: u64 = 1 << 40;

pub const ENTRIES: usize = 48;
pub const DEPARTURES: usize = 32;
pub const ABSENCES: usize = 8;
/// Shards for which rebuilt entries are counted.
pub const COUNTS: usize = 32;
pub const ROUTES: u64 = 8;
pub const CORE: u64 = 8;
pub const EDGES: u64 = 8;
pub const DESTINATIONS: u64 = 4;
/// Groups of a record, and lines and deciding transactions of a finalization.
pub const GROUPS: u64 = 48;
pub const DEEPEST: u64 = 32;
/// Marks of a tree, and how deep a leaf of it may lie.
pub const TREE_MARKS: usize = 63;
pub const LOWEST_LEAF: u32 = 16;
/// Items of a bundle.
pub const ITEMS: u64 = 64;

pub fn is_shard(word: u64) -> bool {
    (1..=LAST_SHARD).contains(&word)
}

pub fn is_span(word: u64) -> bool {
    (1..=LONGEST_SPAN).contains(&word)
}

/// `Err(refusal)` unless the condition holds.
pub fn unless(holds: bool, refusal: u64) -> Result<(), u64> {
    if holds { Ok(()) } else { Err(refusal) }
}

/// A code or a size: at most `most`.
pub fn at_most(word: u64, most: u64) -> Result<(), u64> {
    unless(word <= most, BAD_WORDS)
}

pub fn times(words: &[u64]) -> Result<(), u64> {
    unless(words.iter().all(|word| *word <= LAST_TIME), NO_TIME)
}

pub fn shards(words: &[u64]) -> Result<(), u64> {
    unless(words.iter().all(|word| is_shard(*word)), NO_SHARD)
}

pub fn ascending(words: &[u64]) -> Result<(), u64> {
    unless(words.is_sorted_by(|low, high| low < high), BAD_WORDS)
}
