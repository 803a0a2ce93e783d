//! Making and the changing calls: the table's refusals first, then the Rust's function.

use std::collections::BTreeSet;

use hyperscale_types::PriceTable;
use hyperscale_types::{
    ShardId, SubstateKey, TransactionDecision, TxHash, TxResolution, Verifiable, WeightedTimestamp,
};

use crate::book::{Book, write};
use crate::ledger::{Ledger, inside};
use crate::refusals::{
    ABSENCES, ABSENCES_FULL, BAD_WORDS, COUNTS_FULL, DEPARTURES, DEPARTURES_FULL, ENTRIES,
    ENTRIES_FULL, at_most, shards, times, unless,
};
use crate::snapshot::restored;
use crate::table::Given;
use crate::words::{Admission, abandonment_record, finalization};

pub type Answered = Result<(), u64>;

pub fn new(book: &mut Book, given: Given) -> Answered {
    replace(book, Book::make(given.numbers))
}

pub fn restore(book: &mut Book, given: Given) -> Answered {
    replace(book, restored(given.numbers))
}

/// A refused reading hands back what a refused making does.
fn replace(book: &mut Book, made: Result<Book, u64>) -> Answered {
    let refusal = made.as_ref().err().copied();
    *book = made.unwrap_or_default();
    refusal.map_or(Ok(()), Err)
}

pub fn register_committed(book: &mut Book, given: Given) -> Answered {
    let Admission {
        committed,
        transaction,
        classified,
    } = Admission::read(given.numbers)?;
    let before = book.ledger.len();
    let owed = book.ledger.contains(transaction.hash());
    unless(owed || before < ENTRIES, ENTRIES_FULL)?;
    let member = Verifiable(transaction);
    book.ledger
        .register_committed(committed, &PriceTable, [(&member, &classified)]);
    given.say((book.ledger.len() - before) as u64)
}

pub fn record_absence(book: &mut Book, given: Given) -> Answered {
    shards(&given.numbers[1..2])?;
    let tx_hash = TxHash(given.numbers[0]);
    let shard = ShardId(given.numbers[1]);
    let key = SubstateKey(given.numbers[2]);
    let room = inside::absences(&book.ledger, tx_hash) < ABSENCES;
    unless(
        room || inside::absent(&book.ledger, tx_hash, shard, key),
        ABSENCES_FULL,
    )?;
    let new = book.ledger.record_absence(tx_hash, shard, key);
    given.say(u64::from(new))
}

pub fn certify(book: &mut Book, given: Given) -> Answered {
    let how = inside::certified(given.numbers[1]).ok_or(BAD_WORDS)?;
    book.ledger.certify(TxHash(given.numbers[0]), how);
    Ok(())
}

pub fn record_abandonment(book: &mut Book, given: Given) -> Answered {
    let record = abandonment_record(given.numbers)?;
    let shard = given.numbers[1];
    let new: BTreeSet<TxHash> = record
        .unsettled()
        .iter()
        .map(|entry| entry.tx_hash)
        .filter(|tx_hash| !book.ledger.contains(*tx_hash))
        .collect();
    unless(new.len() <= ENTRIES - book.ledger.len(), ENTRIES_FULL)?;
    unless(new.is_empty() || book.can_count(shard), COUNTS_FULL)?;
    let rebuilt = book.ledger.record_abandonment_records(&[record]) as u64;
    book.count(shard, rebuilt);
    given.say(rebuilt)
}

pub fn settled(book: &mut Book, given: Given) -> Answered {
    book.ledger
        .settled(SubstateKey(given.numbers[0]), TxHash(given.numbers[1]));
    Ok(())
}

pub fn returned(book: &mut Book, given: Given) -> Answered {
    book.ledger
        .returned(SubstateKey(given.numbers[0]), TxHash(given.numbers[1]));
    Ok(())
}

/// A copy of the ledger, where a list with room for so many items may turn out too short. Elsewhere none is made, so that a timed
/// call costs what the Rust's own does.
fn spare(book: &Book, room: usize) -> Option<Ledger> {
    (room < book.ledger.len()).then(|| inside::copy(&book.ledger))
}

fn put_back(book: &mut Book, before: Option<Ledger>) {
    if let Some(ledger) = before {
        book.ledger = ledger;
    }
}

/// The Rust refuses no list, so it runs on and a list too short puts the copy back.
pub fn closes(book: &mut Book, given: Given) -> Answered {
    let before = spare(book, given.lent.len() / 2);
    let closed = book.ledger.closes().into_iter();
    let words = closed.map(|(tx_hash, resolution)| [tx_hash.0, code(resolution)]);
    let written = write(words, given.lent).inspect_err(|_| put_back(book, before))?;
    given.say(written)
}

pub fn fated(book: &mut Book, given: Given) -> Answered {
    let fate = book.ledger.fated(TxHash(given.numbers[0]));
    given.say(fate.map_or(0, |(_, resolution)| code(resolution)))
}

fn code(resolution: TxResolution) -> u64 {
    let TxResolution::Decided(decision) = resolution;
    match decision {
        TransactionDecision::Accept => 1,
        TransactionDecision::Aborted => 2,
        TransactionDecision::Reject => 3,
    }
}

pub fn release_resolved(book: &mut Book, given: Given) -> Answered {
    let finalization = Verifiable(finalization(given.numbers)?);
    let before = book.ledger.len();
    book.ledger.release_resolved(&[finalization]);
    given.say((before - book.ledger.len()) as u64)
}

pub fn forget(book: &mut Book, given: Given) -> Answered {
    let before = book.ledger.len();
    book.ledger.forget(TxHash(given.numbers[0]));
    given.say((before - book.ledger.len()) as u64)
}

pub fn record_terminal(book: &mut Book, given: Given) -> Answered {
    let [shard, cut, stamped, until] = [0, 1, 2, 3].map(|place| given.numbers[place]);
    at_most(stamped, 1)?;
    let readable_until = (stamped == 1).then_some(WeightedTimestamp(until));
    times(&[cut, readable_until.map_or(0, |until| until.0)])?;
    shards(&[shard])?;
    let known = inside::has_departure(&book.ledger, ShardId(shard));
    unless(
        known || inside::departures(&book.ledger) < DEPARTURES,
        DEPARTURES_FULL,
    )?;
    book.ledger
        .record_terminal(ShardId(shard), WeightedTimestamp(cut), readable_until);
    Ok(())
}

pub fn stamp_terminal(book: &mut Book, given: Given) -> Answered {
    times(&given.numbers[1..2])?;
    shards(&given.numbers[..1])?;
    book.ledger.stamp_terminal(
        ShardId(given.numbers[0]),
        WeightedTimestamp(given.numbers[1]),
    );
    Ok(())
}

/// As with closes, a list too short puts the copy back.
pub fn prune(book: &mut Book, given: Given) -> Answered {
    times(given.numbers)?;
    let before = spare(book, given.lent.len() / 3);
    let owed = book.ledger.len();
    let reports = book.ledger.prune(WeightedTimestamp(given.numbers[0]));
    let fell = (owed - book.ledger.len()) as u64;
    let words = reports.into_iter().map(|gone| {
        let covered = u64::from(gone.covered_by_record);
        [gone.tx_hash.0, covered, gone.charge.0]
    });
    let written = write(words, given.lent).inspect_err(|_| put_back(book, before))?;
    given.said.push(written);
    given.said.push(fell);
    Ok(())
}
