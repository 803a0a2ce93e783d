//! The lines of call scripts that make the ledgers on which calls are timed. Local is shard 4, the spans are 100, 50 and 200.

/// As many entries as a ledger takes.
pub const FULL: u64 = 48;
pub const MAKING: &str = "new 4 100 50 200";
/// The first of some transactions that no script takes in. They have as many digits as those that come and go.
pub const UNKNOWN: u64 = 900;

pub fn line(name: &str, words: &[u64]) -> String {
    words.iter().fold(name.to_string(), |line, word| {
        line + " " + &word.to_string()
    })
}

/// Lines as a script, each with its line feed.
pub fn script(lines: &[String]) -> String {
    lines.iter().map(|line| line.clone() + "\n").collect()
}

/// Eight routes in eight shards of depth 4, none of them below local.
pub fn routes(tx: u64) -> Vec<u64> {
    (0..8).map(|group| ((8 + group) << 60) + tx).collect()
}

/// Eight routes that lie together down to depth 32 and further.
fn routes_together(tx: u64) -> Vec<u64> {
    (0..8).map(|n| (1 << 63) + tx * 8 + n).collect()
}

/// A departure of each shard on the path to such routes, from depth 1 to 32: all own all of them.
pub fn departures_on_one_path() -> Vec<String> {
    (0..32)
        .map(|deep| line("record_terminal", &[3 << deep, 14, 1, 30]))
        .collect()
}

/// The key of an entry's n-th crossing, which is also its id.
pub fn record(tx: u64, n: u64) -> u64 {
    tx * 8 + n
}

/// Where an entry's routes lie: eight in eight shards, eight together, or none.
#[derive(Clone, Copy)]
enum Reach {
    Apart,
    Together,
    Nowhere,
}

/// An entry as an admission gives it, with deadline 1000 to 2000, anchor 10 and charge 77.
#[derive(Clone, Copy)]
pub struct Entry {
    tx: u64,
    reach: Reach,
    core: &'static [u64],
    /// Crossings from local, each to shard 5.
    edges: u64,
    /// Whether their ids are those of transaction 1, as every other entry's that shares them.
    shared: bool,
}

impl Entry {
    fn new(tx: u64, core: &'static [u64], edges: u64) -> Self {
        Self {
            tx,
            reach: Reach::Apart,
            core,
            edges,
            shared: false,
        }
    }

    pub fn whole(tx: u64) -> Self {
        Self::new(tx, &[], 0)
    }

    pub fn leg(tx: u64, edges: u64) -> Self {
        Self::new(tx, &[5], edges)
    }

    /// A core entry with seven siblings to ask.
    pub fn core(tx: u64, edges: u64) -> Self {
        Self::new(tx, &[4, 5, 6, 7, 8, 9, 10, 11], edges)
    }

    /// The same without routes, so that it takes less text.
    pub fn reaching_nowhere(self) -> Self {
        let reach = Reach::Nowhere;
        Self { reach, ..self }
    }

    /// The same with all routes on one path.
    pub fn reaching_together(self) -> Self {
        let reach = Reach::Together;
        Self { reach, ..self }
    }

    /// The same with ids that others have too.
    pub fn sharing(self) -> Self {
        let shared = true;
        Self { shared, ..self }
    }

    pub fn taken_in(self) -> String {
        self.admission(u64::from(!self.core.is_empty()))
    }

    /// The same admission but for a code that is none: as much to read, and turned away.
    pub fn turned_away(self) -> String {
        self.admission(2)
    }

    fn admission(self, decomposed: u64) -> String {
        let Self {
            tx,
            reach,
            core,
            edges,
            shared,
        } = self;
        let routes = match reach {
            Reach::Apart => routes(tx),
            Reach::Together => routes_together(tx),
            Reach::Nowhere => Vec::new(),
        };
        let each = |word| vec![word; edges as usize];
        let first = if shared { 1 } else { tx };
        let ids = (0..edges).map(|n| record(first, n)).collect();
        let sizes = vec![routes.len() as u64, core.len() as u64, edges];
        let terms = vec![tx, 1000, 2000, 10, 77, decomposed];
        let (froms, kinds, counts, destinations) = (each(4), each(0), each(1), each(5));
        let reach = [routes, core.to_vec(), ids].concat();
        let crossings = [froms, kinds, counts, destinations].concat();
        line(
            "register_committed",
            &[sizes, terms, reach, crossings].concat(),
        )
    }
}

/// A record of this shard that names one transaction, with the terms of an admission.
pub fn abandonment(shard: u64, tx: u64) -> String {
    let words = [vec![1, shard, 8, tx, 1000, 2000, 10, 77], routes(tx)].concat();
    line("record_abandonment", &words)
}

/// A record of this shard that names several, each with eight routes.
pub fn abandonment_of(shard: u64, txs: &[u64]) -> String {
    let groups = txs.iter().flat_map(|tx| [*tx, 1000, 2000, 10, 77]);
    let routes = txs.iter().flat_map(|tx| routes(*tx));
    let sizes = vec![8; txs.len()];
    let head = vec![txs.len() as u64, shard];
    let words = [head, sizes, groups.collect(), routes.collect()].concat();
    line("record_abandonment", &words)
}

/// A ledger with so many entries in two lines: a record rebuilds them, whole and without routes.
pub fn rebuilt(count: u64) -> Vec<String> {
    let groups = (1..=count).flat_map(|tx| [tx, 1000, 2000, 10, 77]);
    let words = [vec![count, 5], vec![0; count as usize], groups.collect()].concat();
    vec![MAKING.to_string(), line("record_abandonment", &words)]
}

/// How many shards have a count of rebuilt entries in a ledger that has all that it may have.
const COUNTED: u64 = 32;

/// The n-th of these shards, by their rising numbers.
pub fn counted_shard(n: u64) -> u64 {
    40 + 2 * n
}

/// A ledger with so many entries, whole and without routes, and with a count for each of 32 shards: a record of each rebuilds one, and the last's the
/// others too.
pub fn counted(count: u64) -> Vec<String> {
    let record = |n: u64| {
        let last = if n + 1 == COUNTED { count } else { n + 1 };
        let txs = n + 1..=last;
        let groups: Vec<u64> = txs.flat_map(|tx| [tx, 1000, 2000, 10, 77]).collect();
        let head = [
            vec![last - n, counted_shard(n)],
            vec![0; (last - n) as usize],
        ];
        line("record_abandonment", &[head.concat(), groups].concat())
    };
    let records = (0..COUNTED).map(record);
    [MAKING.to_string()].into_iter().chain(records).collect()
}

/// A finalization that accepts and decides these transactions.
pub fn finalization(txs: &[u64]) -> String {
    let n = txs.len() as u64;
    let words = [vec![n, n], txs.to_vec(), vec![1; txs.len()], txs.to_vec()].concat();
    line("release_resolved", &words)
}

/// All of a leg's records settled.
pub fn settlements(tx: u64, edges: u64) -> Vec<String> {
    (0..edges)
        .map(|n| line("settled", &[record(tx, n), tx]))
        .collect()
}

/// So many departures over each of the eight routes, each below the one before with an earlier cut, so that the last one counts. All are
/// readable until 30, but the last of a group that is open has no stamp.
pub fn departures(each: u64, open: impl Fn(u64) -> bool) -> Vec<String> {
    let terminal = |group: u64, deep: u64| {
        let stamped = u64::from(!(open(group) && deep + 1 == each));
        let words = [departing(group, deep), 14 - deep, stamped, 30];
        line("record_terminal", &words)
    };
    (0..8)
        .flat_map(|group| (0..each).map(move |deep| (group, deep)))
        .map(|(group, deep)| terminal(group, deep))
        .collect()
}

/// A stamp for the last of the departures over each route, where that is open.
pub fn stamps(each: u64) -> Vec<String> {
    let stamp =
        |deep| (0..8).map(move |group| line("stamp_terminal", &[departing(group, deep), 30]));
    each.checked_sub(1).into_iter().flat_map(stamp).collect()
}

fn departing(group: u64, deep: u64) -> u64 {
    (24 + group) << deep
}
