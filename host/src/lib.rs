//! The owed-transaction ledger for a Rust host: a safe interface over the static library that the proved crate
//! `crates/owed_ledger` builds. `docs/HOSTS.md` has the layout of a snapshot and what each refusal means.
//!
//! A [`Ledger`] is held as the bytes of its snapshot. Each call hands these to the library and takes the ledger after it back
//! in the same form; the library itself keeps nothing. [`slices`] has the same three calls on the host's own buffers.
//!
//! ```
//! use owed_ledger::{Ledger, Spans};
//!
//! let spans = Spans { validity: 100, core: 50, leg: 200 };
//! let mut ledger = Ledger::new(4, spans)?;
//! let pruned = ledger.prune(1_000)?;
//! assert_eq!((pruned.written, pruned.fallen), (0, 0));
//! // 7 words: local, the spans, and how many counts, entries and departures there are: none.
//! assert_eq!(ledger.words(), [4, 100, 50, 200, 0, 0, 0]);
//! # Ok::<(), owed_ledger::Refusal>(())
//! ```

pub mod ffi;
mod ledger;
mod refusal;
pub mod slices;

pub use ledger::{Ledger, Pruned, Report, Spans};
pub use refusal::Refusal;

/// The bytes of the longest snapshot that there is: 5,959 words.
pub const LONGEST_SNAPSHOT: usize = 47_672;

/// The bytes of the longest reports that there are: two numbers, and three words for each of 48 entries.
pub const LONGEST_REPORTS: usize = 1_168;

/// The stack in bytes that a call may use at most; it uses less than half of it.
pub const STACK: usize = 1 << 20;
