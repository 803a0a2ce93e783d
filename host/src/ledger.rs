//! A ledger that owns its snapshot.

use crate::{LONGEST_REPORTS, LONGEST_SNAPSHOT, Refusal, slices};

/// The three spans of a ledger, in milliseconds, each from 1 to 2^40.
#[derive(Clone, Copy, Debug, PartialEq, Eq, Hash)]
pub struct Spans {
    /// How far behind its deadline a transaction may still be valid.
    pub validity: u64,
    /// The length of the Core window.
    pub core: u64,
    /// The length of the `LegEntry` window.
    pub leg: u64,
}

/// A report of a prune: an entry that fell and whose charge is told.
#[derive(Clone, Copy, Debug, PartialEq, Eq, Hash)]
pub struct Report {
    /// The entry's transaction.
    pub transaction: u64,
    /// Whether a record named the entry.
    pub covered: bool,
    /// The entry's charge.
    pub charge: u64,
}

/// What a prune did.
#[derive(Clone, Debug, PartialEq, Eq, Hash)]
pub struct Pruned {
    /// How many reports it wrote.
    pub written: u64,
    /// How many entries fell, with a report or without.
    pub fallen: u64,
    /// The reports, by rising transaction.
    pub reports: Vec<Report>,
}

/// A ledger, held as the bytes of its snapshot. Two are equal where their bytes are, which is where the ledgers are.
#[derive(Clone, Debug, PartialEq, Eq, Hash)]
pub struct Ledger {
    snapshot: Vec<u8>,
}

impl Ledger {
    /// An empty ledger of the shard `local`.
    ///
    /// ```
    /// use owed_ledger::{Ledger, Refusal, Spans};
    ///
    /// let spans = Spans { validity: 100, core: 50, leg: 200 };
    /// assert_eq!(Ledger::new(4, spans)?.words(), [4, 100, 50, 200, 0, 0, 0]);
    /// assert_eq!(Ledger::new(4, Spans { leg: 0, ..spans }), Err(Refusal::NoSpan));
    /// # Ok::<(), Refusal>(())
    /// ```
    ///
    /// # Errors
    ///
    /// [`Refusal::NoShard`], [`Refusal::NoSpan`].
    pub fn new(local: u64, spans: Spans) -> Result<Ledger, Refusal> {
        let mut snapshot = vec![0; 56];
        slices::make(local, spans.validity, spans.core, spans.leg, &mut snapshot)?;
        Ok(Ledger { snapshot })
    }

    /// The ledger whose snapshot the bytes are.
    ///
    /// ```
    /// use owed_ledger::{Ledger, Refusal, Spans};
    ///
    /// let ledger = Ledger::new(4, Spans { validity: 100, core: 50, leg: 200 })?;
    /// assert_eq!(Ledger::from_snapshot(ledger.as_bytes()), Ok(ledger));
    /// assert_eq!(Ledger::from_snapshot(&[]), Err(Refusal::NoSnapshot));
    /// # Ok::<(), Refusal>(())
    /// ```
    ///
    /// # Errors
    ///
    /// [`Refusal::NoSnapshot`], [`Refusal::NeverWritten`].
    pub fn from_snapshot(bytes: &[u8]) -> Result<Ledger, Refusal> {
        let mut snapshot = vec![0; bytes.len()];
        slices::read(bytes, &mut snapshot)?;
        Ok(Ledger { snapshot })
    }

    /// The snapshot: the bytes to store, and to hand to [`from_snapshot`](Ledger::from_snapshot) after a restart.
    ///
    /// ```
    /// use owed_ledger::{Ledger, Spans};
    ///
    /// let ledger = Ledger::new(4, Spans { validity: 100, core: 50, leg: 200 })?;
    /// assert_eq!(ledger.as_bytes()[..8], 4u64.to_le_bytes());
    /// # Ok::<(), owed_ledger::Refusal>(())
    /// ```
    #[must_use]
    pub fn as_bytes(&self) -> &[u8] {
        &self.snapshot
    }

    /// The words of the snapshot.
    ///
    /// ```
    /// use owed_ledger::{Ledger, Spans};
    ///
    /// let ledger = Ledger::new(4, Spans { validity: 100, core: 50, leg: 200 })?;
    /// assert_eq!(ledger.words(), [4, 100, 50, 200, 0, 0, 0]);
    /// # Ok::<(), owed_ledger::Refusal>(())
    /// ```
    #[must_use]
    pub fn words(&self) -> Vec<u64> {
        words_of(&self.snapshot).collect()
    }

    /// Prunes the ledger at the time `now`. Where it is refused the ledger stays as it is.
    ///
    /// ```
    /// use owed_ledger::{Ledger, Refusal, Spans};
    ///
    /// let mut ledger = Ledger::new(4, Spans { validity: 100, core: 50, leg: 200 })?;
    /// let pruned = ledger.prune(1_000)?;
    /// assert_eq!(pruned.reports, []);
    /// assert_eq!(ledger.prune(1 << 48), Err(Refusal::NoTime));
    /// # Ok::<(), Refusal>(())
    /// ```
    ///
    /// # Errors
    ///
    /// [`Refusal::NoTime`].
    pub fn prune(&mut self, now: u64) -> Result<Pruned, Refusal> {
        let mut after = vec![0; LONGEST_SNAPSHOT];
        let mut reports = [0; LONGEST_REPORTS];
        slices::prune(&self.snapshot, now, &mut after, &mut reports)?;
        let Some(len) = slices::snapshot_len(&after) else {
            unreachable!(
                "what goes out is a snapshot, which stands whole in a slice for the longest"
            );
        };
        after.truncate(len);
        self.snapshot = after;
        Ok(Pruned::of(&reports))
    }
}

impl Pruned {
    /// What the bytes of reports say.
    fn of(bytes: &[u8]) -> Pruned {
        let mut words = words_of(bytes);
        let mut next = || words.next().unwrap_or(0);
        let (written, fallen) = (next(), next());
        let reports = (0..written).map(|_| Report {
            transaction: next(),
            covered: next() == 1,
            charge: next(),
        });
        Pruned {
            written,
            fallen,
            reports: reports.collect(),
        }
    }
}

/// The words that the bytes are.
fn words_of(bytes: &[u8]) -> impl Iterator<Item = u64> {
    let (words, _) = bytes.as_chunks();
    words.iter().map(|word| u64::from_le_bytes(*word))
}
