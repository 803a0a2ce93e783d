//! The readings: lists and lookups, and the dump of everything held.

use hyperscale_types::{
    Deadline, Inclusion, RoutePrefix, ShardId, ShardTrie, SubstateKey, TxHash, WeightedTimestamp,
};
use hyperscale_vm_effects::CrossingId;

use crate::book::{Book, write};
use crate::ledger::{Ledger, Question, inside};
use crate::refusals::{DEEPEST, at_most, shards, times};
use crate::table::Given;
use crate::tree;

type Answered = Result<(), u64>;

pub fn questions(book: &mut Book, given: Given) -> Answered {
    let asked = book.ledger.questions().into_iter();
    let words = asked.map(|asked| {
        let (at, end) = (asked.deadline.at().0, asked.deadline.validity_end().0);
        [asked.tx_hash.0, asked.shard.0, asked.key.0, at, end]
    });
    list(words, given)
}

fn question(numbers: &[u64]) -> Question {
    Question {
        tx_hash: TxHash(numbers[0]),
        shard: ShardId(numbers[1]),
        key: SubstateKey(numbers[2]),
        deadline: Deadline::of(WeightedTimestamp(numbers[3]), WeightedTimestamp(numbers[4])),
    }
}

pub fn open_at(_: &mut Book, given: Given) -> Answered {
    times(&given.numbers[3..6])?;
    shards(&given.numbers[1..2])?;
    let open = question(given.numbers).open_at(WeightedTimestamp(given.numbers[5]));
    given.say(u64::from(open))
}

pub fn answers(book: &mut Book, given: Given) -> Answered {
    at_most(given.numbers[6], 1)?;
    times(&given.numbers[3..6])?;
    shards(&given.numbers[1..2])?;
    let inclusion = if given.numbers[6] == 0 {
        Inclusion::Absent
    } else {
        Inclusion::Present
    };
    let read_at = WeightedTimestamp(given.numbers[5]);
    let answers = book
        .ledger
        .answers(&question(given.numbers), read_at, inclusion);
    given.say(u64::from(answers))
}

pub fn past_deadline(book: &mut Book, given: Given) -> Answered {
    times(given.numbers)?;
    let past = book
        .ledger
        .past_deadline(WeightedTimestamp(given.numbers[0]));
    let words = past.into_iter().map(|tx| {
        let (at, end) = (tx.deadline.at().0, tx.deadline.validity_end().0);
        [tx.tx_hash.0, at, end, tx.committed.anchor.0, tx.charge.0]
    });
    list(words, given)
}

pub fn issuers_of(book: &mut Book, given: Given) -> Answered {
    let issuers = book.ledger.issuers_of(&CrossingId(given.numbers[0]));
    let words = issuers
        .into_iter()
        .map(|issuer| [issuer.tx.0, issuer.validity_end_ms]);
    list(words, given)
}

pub fn claimants(book: &mut Book, given: Given) -> Answered {
    let record = SubstateKey(given.numbers[1]);
    list_shards(
        book.ledger.claimants(TxHash(given.numbers[0]), record),
        given,
    )
}

pub fn counterparts(book: &mut Book, given: Given) -> Answered {
    at_most(given.numbers[1], DEEPEST)?;
    let trie = ShardTrie::Uniform(given.numbers[1] as u32);
    list_counterparts(book, &trie, given)
}

pub fn counterparts_by_tree(book: &mut Book, given: Given) -> Answered {
    let trie = ShardTrie::of_leaves(tree::leaves(&given.numbers[1..])?);
    list_counterparts(book, &trie, given)
}

fn list_counterparts(book: &Book, trie: &ShardTrie, given: Given) -> Answered {
    let shards = book.ledger.counterparts(TxHash(given.numbers[0]), trie);
    list_shards(shards, given)
}

pub fn leaf_for_route(_: &mut Book, given: Given) -> Answered {
    let trie = ShardTrie::of_leaves(tree::leaves(&given.numbers[1..])?);
    let leaf = trie.shard_for_route(RoutePrefix(given.numbers[0]));
    given.say(leaf.0)
}

pub fn leaves(_: &mut Book, given: Given) -> Answered {
    list_shards(tree::leaves(given.numbers)?, given)
}

pub fn unstamped_departures(book: &mut Book, given: Given) -> Answered {
    list_shards(book.ledger.unstamped_departures(), given)
}

/// Added by the paper: read from the entry as held.
pub fn reach(book: &mut Book, given: Given) -> Answered {
    let routes = inside::reach(&book.ledger, TxHash(given.numbers[0]));
    list(routes.iter().map(|route| [route.0]), given)
}

pub fn abandonment_answers(book: &mut Book, given: Given) -> Answered {
    lookup(book, given, |ledger, tx_hash| {
        ledger.abandonment_answers(tx_hash).is_some()
    })
}

pub fn is_covered(book: &mut Book, given: Given) -> Answered {
    lookup(book, given, Ledger::is_covered)
}

pub fn departed(book: &mut Book, given: Given) -> Answered {
    lookup(book, given, Ledger::departed)
}

pub fn executed(book: &mut Book, given: Given) -> Answered {
    lookup(book, given, Ledger::executed)
}

pub fn reaches_beyond(book: &mut Book, given: Given) -> Answered {
    lookup(book, given, Ledger::reaches_beyond)
}

pub fn issued_by(book: &mut Book, given: Given) -> Answered {
    let issued = book
        .ledger
        .issued_by(SubstateKey(given.numbers[0]), TxHash(given.numbers[1]));
    given.say(u64::from(issued))
}

pub fn local(book: &mut Book, given: Given) -> Answered {
    given.say(book.ledger.local().0)
}

pub fn rebuilt(book: &mut Book, given: Given) -> Answered {
    given.say(book.rebuilt())
}

pub fn rebuilt_by_shard(book: &mut Book, given: Given) -> Answered {
    let counts = book.counts.iter();
    list(counts.map(|(shard, count)| [*shard, *count]), given)
}

pub fn snapshot(book: &mut Book, given: Given) -> Answered {
    let mut words = head(book);
    inside::snapshot(&book.ledger, &mut words);
    list(words.into_iter().map(|word| [word]), given)
}

pub fn dump(book: &mut Book, given: Given) -> Answered {
    given.said.extend(head(book));
    inside::dump(&book.ledger, given.said);
    Ok(())
}

/// Local, the spans, how many counts there are, and these, shard and count.
fn head(book: &Book) -> Vec<u64> {
    let spans = book.spans;
    let local = book.ledger.local().0;
    let counts = book.counts.len() as u64;
    let mut words = vec![local, spans.validity, spans.core, spans.leg_entry, counts];
    words.extend(
        book.counts
            .iter()
            .flat_map(|(shard, count)| [*shard, *count]),
    );
    words
}

fn lookup(book: &Book, given: Given, ask: impl Fn(&Ledger, TxHash) -> bool) -> Answered {
    let answer = ask(&book.ledger, TxHash(given.numbers[0]));
    given.say(u64::from(answer))
}

fn list_shards(
    shards: impl IntoIterator<Item = ShardId, IntoIter: ExactSizeIterator>,
    given: Given,
) -> Answered {
    list(shards.into_iter().map(|shard| [shard.0]), given)
}

fn list<const WORDS: usize>(
    words: impl ExactSizeIterator<Item = [u64; WORDS]>,
    given: Given,
) -> Answered {
    let written = write(words, given.lent)?;
    given.say(written)
}
