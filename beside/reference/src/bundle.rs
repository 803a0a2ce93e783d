//! A bundle: all that a block brings, as one list of words. The Rust has none: the calls of its items are made one by one, and where
//! one is refused the ledger is put back from a copy.

use std::sync::atomic::{AtomicBool, Ordering};

use crate::book::Book;
use crate::changing::{
    Answered, record_abandonment, record_absence, record_terminal, register_committed,
    release_resolved,
};
use crate::refusals::{BAD_BUNDLE, BAD_WORDS, ITEMS, NO_KIND, unless};
use crate::table::{Body, Given};

/// What an item of a kind is: a call, with how many words where the call has a fixed count.
pub struct Kind {
    pub call: &'static str,
    pub words: Option<usize>,
    make: Body,
}

impl Kind {
    const fn of(call: &'static str, words: Option<usize>, make: Body) -> Self {
        Self { call, words, make }
    }
}

/// From kind 1 on.
pub static KINDS: [Kind; 5] = [
    Kind::of("record_terminal", Some(4), record_terminal),
    Kind::of("record_abandonment", None, record_abandonment),
    Kind::of("release_resolved", None, release_resolved),
    Kind::of("register_committed", None, register_committed),
    Kind::of("record_absence", Some(3), record_absence),
];

/// The places of the kinds whose answers are the bundle's, in its order: admissions, abandonment records, finalizations.
const COUNTED: [usize; 3] = [3, 1, 2];

static KEEPS_COPY: AtomicBool = AtomicBool::new(true);

/// For timing: make bundles without a copy of the ledger. One that is refused then stops the program.
pub fn keep_no_copy() {
    KEEPS_COPY.store(false, Ordering::Relaxed);
}

/// An item's kind, as its place in the table, and its words.
type Item<'a> = (usize, &'a [u64]);

/// The items by rising kind and, within a kind, as written.
fn items(words: &[u64]) -> Result<Vec<Item<'_>>, u64> {
    let (count, rest) = words.split_first().ok_or(BAD_BUNDLE)?;
    unless(*count <= ITEMS, BAD_BUNDLE)?;
    let count = *count as usize;
    let (kinds, rest) = rest.split_at_checked(count).ok_or(BAD_BUNDLE)?;
    let (lengths, mut rest) = rest.split_at_checked(count).ok_or(BAD_BUNDLE)?;
    let known = |kind: &u64| (1..=KINDS.len() as u64).contains(kind);
    unless(kinds.iter().all(known), NO_KIND)?;
    let total: u128 = lengths.iter().map(|length| u128::from(*length)).sum();
    unless(total == rest.len() as u128, BAD_BUNDLE)?;
    let mut items = Vec::with_capacity(count);
    for (kind, length) in kinds.iter().zip(lengths) {
        let (item, others) = rest.split_at(*length as usize);
        items.push((*kind as usize - 1, item));
        rest = others;
    }
    items.sort_by_key(|(kind, _)| *kind);
    Ok(items)
}

pub fn bundle(book: &mut Book, given: Given) -> Answered {
    let items = items(given.numbers)?;
    let before = KEEPS_COPY
        .load(Ordering::Relaxed)
        .then(|| Box::new(book.clone()));
    match make_all(book, &items) {
        Ok(answers) => {
            given.said.extend(answers);
            Ok(())
        }
        Err(refusal) => {
            *book = *before.expect("a bundle is refused, and no copy of the ledger was kept");
            Err(refusal)
        }
    }
}

/// The answers of the kinds that are counted, or the first refusal.
fn make_all(book: &mut Book, items: &[Item]) -> Result<[u64; 3], u64> {
    let mut totals = [0; KINDS.len()];
    let mut said = Vec::new();
    for (kind, words) in items {
        said.clear();
        make(book, *kind, words, &mut said)?;
        totals[*kind] += said.iter().sum::<u64>();
    }
    Ok(COUNTED.map(|kind| totals[kind]))
}

fn make(book: &mut Book, kind: usize, words: &[u64], said: &mut Vec<u64>) -> Answered {
    let kind = &KINDS[kind];
    unless(
        kind.words.is_none_or(|count| words.len() == count),
        BAD_WORDS,
    )?;
    let given = Given {
        numbers: words,
        lent: &mut [],
        said,
    };
    (kind.make)(book, given)
}
