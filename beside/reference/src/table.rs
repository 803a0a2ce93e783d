//! The table of calls: name, how many numbers, words of a list item, and what runs.

use crate::book::Book;
use crate::script::MOST_NUMBERS;
use crate::{bundle, changing, readings};

use Numbers::{Behind, Exactly};

/// What a call is handed, and where it says its answers.
pub struct Given<'a> {
    pub numbers: &'a [u64],
    pub lent: &'a mut [u64],
    pub said: &'a mut Vec<u64>,
}

impl Given<'_> {
    pub(crate) fn say(self, word: u64) -> Result<(), u64> {
        self.said.push(word);
        Ok(())
    }
}

pub(crate) type Body = fn(&mut Book, Given) -> Result<(), u64>;

/// How many numbers a call has.
#[derive(Clone, Copy)]
pub enum Numbers {
    Exactly(usize),
    /// Words of any count, behind as many numbers of their own.
    Behind(usize),
}

impl Numbers {
    /// No line without as many is the call's.
    pub fn least(self) -> usize {
        match self {
            Self::Exactly(count) | Self::Behind(count) => count,
        }
    }

    pub fn any_count(self) -> bool {
        matches!(self, Self::Behind(_))
    }

    pub(crate) fn fit(self, count: usize) -> bool {
        count == self.least()
            || (self.any_count() && (self.least()..=MOST_NUMBERS).contains(&count))
    }
}

pub struct Call {
    pub name: &'static str,
    pub numbers: Numbers,
    /// Words of one item for a call that takes a list, else 0.
    pub item: usize,
    body: Body,
}

impl Call {
    const fn of(name: &'static str, numbers: Numbers, item: usize, body: Body) -> Self {
        Self {
            name,
            numbers,
            item,
            body,
        }
    }

    /// Make the call; `Err` is the refusal's number.
    pub fn make(&self, book: &mut Book, given: Given) -> Result<(), u64> {
        book.spans.stand();
        (self.body)(book, given)
    }
}

pub static CALLS: [Call; 39] = [
    Call::of("new", Exactly(4), 0, changing::new),
    Call::of("restore", Behind(0), 0, changing::restore),
    Call::of(
        "register_committed",
        Behind(0),
        0,
        changing::register_committed,
    ),
    Call::of("record_absence", Exactly(3), 0, changing::record_absence),
    Call::of("certify", Exactly(2), 0, changing::certify),
    Call::of(
        "record_abandonment",
        Behind(0),
        0,
        changing::record_abandonment,
    ),
    Call::of("settled", Exactly(2), 0, changing::settled),
    Call::of("returned", Exactly(2), 0, changing::returned),
    Call::of("closes", Exactly(0), 2, changing::closes),
    Call::of("fated", Exactly(1), 0, changing::fated),
    Call::of("release_resolved", Behind(0), 0, changing::release_resolved),
    Call::of("forget", Exactly(1), 0, changing::forget),
    Call::of("record_terminal", Exactly(4), 0, changing::record_terminal),
    Call::of("stamp_terminal", Exactly(2), 0, changing::stamp_terminal),
    Call::of("prune", Exactly(1), 3, changing::prune),
    Call::of("bundle", Behind(0), 0, bundle::bundle),
    Call::of("questions", Exactly(0), 5, readings::questions),
    Call::of("open_at", Exactly(6), 0, readings::open_at),
    Call::of("answers", Exactly(7), 0, readings::answers),
    Call::of("past_deadline", Exactly(1), 5, readings::past_deadline),
    Call::of("issuers_of", Exactly(1), 2, readings::issuers_of),
    Call::of("claimants", Exactly(2), 1, readings::claimants),
    Call::of("counterparts", Exactly(2), 1, readings::counterparts),
    Call::of(
        "unstamped_departures",
        Exactly(0),
        1,
        readings::unstamped_departures,
    ),
    Call::of("reach", Exactly(1), 1, readings::reach),
    Call::of(
        "abandonment_answers",
        Exactly(1),
        0,
        readings::abandonment_answers,
    ),
    Call::of("is_covered", Exactly(1), 0, readings::is_covered),
    Call::of("departed", Exactly(1), 0, readings::departed),
    Call::of("executed", Exactly(1), 0, readings::executed),
    Call::of("reaches_beyond", Exactly(1), 0, readings::reaches_beyond),
    Call::of("issued_by", Exactly(2), 0, readings::issued_by),
    Call::of("local", Exactly(0), 0, readings::local),
    Call::of("rebuilt", Exactly(0), 0, readings::rebuilt),
    Call::of(
        "rebuilt_by_shard",
        Exactly(0),
        2,
        readings::rebuilt_by_shard,
    ),
    Call::of("leaf_for_route", Behind(1), 0, readings::leaf_for_route),
    Call::of("leaves", Behind(0), 1, readings::leaves),
    Call::of(
        "counterparts_by_tree",
        Behind(1),
        1,
        readings::counterparts_by_tree,
    ),
    Call::of("snapshot", Exactly(0), 1, readings::snapshot),
    Call::of("dump", Exactly(0), 0, readings::dump),
];

pub fn call_named(name: &[u8]) -> Option<&'static Call> {
    CALLS.iter().find(|call| call.name.as_bytes() == name)
}
