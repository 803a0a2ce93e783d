//! Reading the words of admissions, abandonment records and finalizations.
//!
//! Each reader gives 5, then 3, then 4, and afterwards hands over the Rust's own types.

use hyperscale_engine::legs::Classified;
use hyperscale_types::{
    AbandonmentRecord, AbortCharge, CommittedAt, Deadline, Finalization, RoutePrefix, ShardId,
    Transaction, TransactionDecision, TxHash, UnsettledTx, WeightedTimestamp,
};
use hyperscale_vm_effects::{Crossing, CrossingEdge, CrossingId, Kind};

use crate::refusals::{
    BAD_WORDS, CORE, DESTINATIONS, EDGES, GROUPS, ROUTES, ascending, at_most, shards, times, unless,
};

/// What has not been read yet.
struct Rest<'a>(&'a [u64]);

impl<'a> Rest<'a> {
    fn take(&mut self, count: u64) -> Result<&'a [u64], u64> {
        let count = usize::try_from(count).map_err(|_| BAD_WORDS)?;
        let (taken, rest) = self.0.split_at_checked(count).ok_or(BAD_WORDS)?;
        self.0 = rest;
        Ok(taken)
    }

    fn sizes<const N: usize>(&mut self, limits: [u64; N]) -> Result<[u64; N], u64> {
        let mut sizes = [0; N];
        sizes.copy_from_slice(self.take(N as u64)?);
        for (size, limit) in sizes.iter().zip(limits) {
            at_most(*size, limit)?;
        }
        Ok(sizes)
    }

    fn end(self) -> Result<(), u64> {
        unless(self.0.is_empty(), BAD_WORDS)
    }
}

/// Transaction, at, end, anchor and charge: the figures that every taking-in states.
fn figures(words: &[u64], routes: &[u64]) -> UnsettledTx {
    UnsettledTx {
        tx_hash: TxHash(words[0]),
        deadline: Deadline::of(WeightedTimestamp(words[1]), WeightedTimestamp(words[2])),
        committed: CommittedAt {
            anchor: WeightedTimestamp(words[3]),
        },
        charge: AbortCharge(words[4]),
        reach: routes.iter().copied().map(RoutePrefix).collect(),
    }
}

pub struct Admission {
    pub committed: CommittedAt,
    pub transaction: Transaction,
    pub classified: Classified,
}

/// The edges of an admission, as they stand in its words.
struct Edges<'a> {
    ids: &'a [u64],
    from: &'a [u64],
    kinds: &'a [u64],
    to: Vec<&'a [u64]>,
}

impl<'a> Edges<'a> {
    fn read(rest: &mut Rest<'a>, count: u64) -> Result<Self, u64> {
        let [ids, from, kinds, sizes] = [
            rest.take(count)?,
            rest.take(count)?,
            rest.take(count)?,
            rest.take(count)?,
        ];
        let mut to = Vec::with_capacity(sizes.len());
        for (kind, size) in kinds.iter().zip(sizes) {
            at_most(*kind, 1)?;
            at_most(*size, DESTINATIONS)?;
            to.push(rest.take(*size)?);
            ascending(to[to.len() - 1])?;
        }
        Ok(Self {
            ids,
            from,
            kinds,
            to,
        })
    }

    fn shards(&self) -> Result<(), u64> {
        shards(self.from)?;
        self.to.iter().try_for_each(|to| shards(to))
    }

    fn edge(&self, place: usize) -> CrossingEdge<ShardId> {
        let kind = if self.kinds[place] == 1 {
            Kind::Owed
        } else {
            Kind::Escrowed
        };
        CrossingEdge {
            from: ShardId(self.from[place]),
            to: self.to[place].iter().copied().map(ShardId).collect(),
            crossing: Crossing {
                id: CrossingId(self.ids[place]),
                kind,
            },
        }
    }
}

impl Admission {
    pub fn read(words: &[u64]) -> Result<Self, u64> {
        let mut rest = Rest(words);
        let [r, c, e] = rest.sizes([ROUTES, CORE, EDGES])?;
        let fixed = rest.take(6)?;
        let decomposed = fixed[5];
        at_most(decomposed, 1)?;
        let routes = rest.take(r)?;
        let core = rest.take(c)?;
        ascending(core)?;
        let edges = Edges::read(&mut rest, e)?;
        rest.end()?;
        times(&fixed[1..4])?;
        shards(core)?;
        edges.shards()?;
        let UnsettledTx {
            tx_hash,
            deadline,
            committed,
            charge,
            reach,
        } = figures(fixed, routes);
        Ok(Self {
            committed,
            transaction: Transaction {
                tx_hash,
                deadline,
                charge,
                reach,
            },
            classified: Classified::of(
                decomposed == 1,
                core.iter().copied().map(ShardId).collect(),
                (0..edges.ids.len())
                    .map(|place| edges.edge(place))
                    .collect(),
            ),
        })
    }
}

pub fn abandonment_record(words: &[u64]) -> Result<AbandonmentRecord, u64> {
    let mut rest = Rest(words);
    let [n] = rest.sizes([GROUPS])?;
    let shard = rest.take(1)?;
    let sizes = rest.take(n)?;
    let groups = rest.take(5 * n)?;
    let mut unsettled = Vec::with_capacity(sizes.len());
    for (size, group) in sizes.iter().zip(groups.chunks_exact(5)) {
        at_most(*size, ROUTES)?;
        unsettled.push(figures(group, rest.take(*size)?));
    }
    rest.end()?;
    groups
        .chunks_exact(5)
        .try_for_each(|group| times(&group[1..4]))?;
    shards(shard)?;
    Ok(AbandonmentRecord::of(ShardId(shard[0]), unsettled))
}

pub fn finalization(words: &[u64]) -> Result<Finalization, u64> {
    let mut rest = Rest(words);
    let [n, m] = rest.sizes([GROUPS, GROUPS])?;
    let transactions = rest.take(n)?;
    let codes = rest.take(n)?;
    let deciding = rest.take(m)?;
    rest.end()?;
    let decisions = transactions
        .iter()
        .zip(codes)
        .map(|(tx_hash, code)| Ok((TxHash(*tx_hash), decision(*code)?)))
        .collect::<Result<_, u64>>()?;
    Ok(Finalization::of(
        decisions,
        deciding.iter().copied().map(TxHash).collect(),
    ))
}

fn decision(code: u64) -> Result<TransactionDecision, u64> {
    match code {
        1 => Ok(TransactionDecision::Accept),
        2 => Ok(TransactionDecision::Aborted),
        3 => Ok(TransactionDecision::Reject),
        _ => Err(BAD_WORDS),
    }
}
