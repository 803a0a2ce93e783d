//! Why a call is turned away.

use std::error::Error;
use std::fmt;

/// Why the library turned a call away. It then wrote nothing.
///
/// ```
/// use owed_ledger::{Ledger, Refusal, Spans};
///
/// let refusal = Ledger::new(0, Spans { validity: 1, core: 1, leg: 1 }).unwrap_err();
/// assert_eq!(refusal, Refusal::NoShard);
/// assert_eq!(refusal.number(), 1);
/// assert_eq!(refusal.to_string(), "local is no shard: it is 0 or above 2^33 - 1");
/// ```
#[derive(Clone, Copy, Debug, PartialEq, Eq, Hash)]
pub enum Refusal {
    /// A making: local is 0 or above 2^33 − 1.
    NoShard = 1,
    /// A making: a span is 0 or above 2^40.
    NoSpan = 2,
    /// A prune: the clock is above 2^48 − 1.
    NoTime = 3,
    /// The slice for the ledger or the one for the reports is too short.
    TooShort = 9,
    /// The bytes are no snapshot: they are no whole words, not as many as their sizes require, or a size is over its limit.
    NoSnapshot = 12,
    /// The bytes have the form of a snapshot, but no ledger is written so.
    NeverWritten = 13,
}

impl Refusal {
    /// Every refusal that a host can meet.
    pub const ALL: [Refusal; 6] = [
        Refusal::NoShard,
        Refusal::NoSpan,
        Refusal::NoTime,
        Refusal::TooShort,
        Refusal::NoSnapshot,
        Refusal::NeverWritten,
    ];

    /// The number that the function gives.
    ///
    /// ```
    /// assert_eq!(owed_ledger::Refusal::NeverWritten.number(), 13);
    /// ```
    #[must_use]
    pub const fn number(self) -> u64 {
        self as u64
    }

    /// The refusal with a number; none for 0 and every other.
    ///
    /// ```
    /// use owed_ledger::Refusal;
    ///
    /// assert_eq!(Refusal::from_number(12), Some(Refusal::NoSnapshot));
    /// assert_eq!(Refusal::from_number(0), None);
    /// ```
    #[must_use]
    pub fn from_number(number: u64) -> Option<Refusal> {
        Refusal::ALL
            .into_iter()
            .find(|refusal| refusal.number() == number)
    }

    /// What a function gave.
    pub(crate) fn check(number: u64) -> Result<(), Refusal> {
        if number == 0 {
            return Ok(());
        }
        match Refusal::from_number(number) {
            Some(refusal) => Err(refusal),
            None => unreachable!("the library gave {number}, which is no refusal of its own"),
        }
    }
}

impl fmt::Display for Refusal {
    fn fmt(&self, f: &mut fmt::Formatter<'_>) -> fmt::Result {
        f.write_str(match self {
            Refusal::NoShard => "local is no shard: it is 0 or above 2^33 - 1",
            Refusal::NoSpan => "a span is 0 or above 2^40",
            Refusal::NoTime => "the clock is no time: it is above 2^48 - 1",
            Refusal::TooShort => "the slice for the ledger or the one for the reports is too short",
            Refusal::NoSnapshot => {
                "the bytes are no snapshot: their number is not what their sizes require, or a size is over its limit"
            }
            Refusal::NeverWritten => "the bytes have the form of a snapshot, but no ledger is written so",
        })
    }
}

impl Error for Refusal {}
