//! The items of a bundle, read off its words and put down as words.

use reference::{Call, KINDS, call_named};

#[derive(Clone)]
pub struct Item {
    pub kind: u64,
    pub words: Vec<u64>,
}

/// The kinds from 1 on, by the names of their calls.
pub const TERMINAL: u64 = 1;
pub const RECORD: u64 = 2;
pub const FINALIZATION: u64 = 3;
pub const ADMISSION: u64 = 4;
pub const ABSENCE: u64 = 5;

impl Item {
    pub fn of(kind: u64, words: Vec<u64>) -> Self {
        Self { kind, words }
    }

    /// The call that it is, with its numbers. One of a length that its kind has not is a call that is refused by 5, whatever the ledger, and names nothing.
    pub fn call(&self) -> (&'static Call, Vec<u64>) {
        let kind = &KINDS[self.kind as usize - 1];
        let fits = kind.words.is_none_or(|count| self.words.len() == count);
        let (name, numbers) = if fits {
            (kind.call, self.words.clone())
        } else {
            ("release_resolved", Vec::new())
        };
        let call = call_named(name.as_bytes()).expect("a call of the table");
        (call, numbers)
    }
}

/// A bundle of these items: their number, their kinds, their lengths, their words joined.
pub fn joined(items: &[Item]) -> Vec<u64> {
    let mut words = vec![items.len() as u64];
    words.extend(items.iter().map(|item| item.kind));
    words.extend(items.iter().map(|item| item.words.len() as u64));
    words.extend(items.iter().flat_map(|item| &item.words));
    words
}

/// A bundle's items as they are written, whether its words are well formed or not: an item has what there is of its words.
pub fn written(words: &[u64]) -> Vec<Item> {
    let count = words.first().copied().unwrap_or(0);
    let [kinds, lengths] = [0, 1].map(|array| part(words, count.saturating_mul(array), count));
    let mut at = count.saturating_mul(2);
    let item = |(kind, length): (&u64, &u64)| {
        let item = Item::of(*kind, part(words, at, *length).to_vec());
        at = at.saturating_add(*length);
        item
    };
    kinds.iter().zip(lengths).map(item).collect()
}

/// At most so many of the words behind the first, from a place on.
fn part(words: &[u64], from: u64, count: u64) -> &[u64] {
    let rest = words.get(1..).unwrap_or_default();
    let rest = rest.get(from as usize..).unwrap_or_default();
    &rest[..rest.len().min(count as usize)]
}

/// The items of a known kind in the order in which they are done.
pub fn in_order(mut items: Vec<Item>) -> Vec<Item> {
    items.retain(|item| (TERMINAL..=ABSENCE).contains(&item.kind));
    items.sort_by_key(|item| item.kind);
    items
}
