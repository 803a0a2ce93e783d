//! The three calls on the host's own buffers: nothing is allocated. On a refusal no byte is written; else what is written stands
//! at the front, and every byte beyond it keeps its content. Rust's borrows see to it that no slice overlaps one that is written.

use crate::{Refusal, ffi};

/// Makes an empty ledger, and writes its snapshot to `out`.
///
/// ```
/// let mut out = [0xaa; 64];
/// owed_ledger::slices::make(4, 100, 50, 200, &mut out)?;
/// assert_eq!(owed_ledger::slices::snapshot_len(&out), Some(56));
/// assert_eq!(out[..16], [4, 0, 0, 0, 0, 0, 0, 0, 100, 0, 0, 0, 0, 0, 0, 0]);
/// assert_eq!(out[56..], [0xaa; 8]);
/// # Ok::<(), owed_ledger::Refusal>(())
/// ```
///
/// # Errors
///
/// [`NoShard`](Refusal::NoShard), [`NoSpan`](Refusal::NoSpan), [`TooShort`](Refusal::TooShort), in this order.
pub fn make(local: u64, v: u64, c: u64, l: u64, out: &mut [u8]) -> Result<(), Refusal> {
    // SAFETY: the pointer and the length are those of one slice that is lent for the call alone.
    Refusal::check(unsafe { ffi::owed_ledger_make(local, v, c, l, out.as_mut_ptr(), out.len()) })
}

/// Reads a snapshot, and writes the ledger's snapshot, the same bytes, to `out`.
///
/// ```
/// use owed_ledger::{Refusal, slices};
///
/// let mut snapshot = [0; 56];
/// slices::make(4, 100, 50, 200, &mut snapshot)?;
/// let mut out = [0; 56];
/// slices::read(&snapshot, &mut out)?;
/// assert_eq!(out, snapshot);
/// assert_eq!(slices::read(&snapshot[..55], &mut out), Err(Refusal::NoSnapshot));
/// # Ok::<(), Refusal>(())
/// ```
///
/// # Errors
///
/// [`NoSnapshot`](Refusal::NoSnapshot), [`NeverWritten`](Refusal::NeverWritten), [`TooShort`](Refusal::TooShort), in this order.
pub fn read(snapshot: &[u8], out: &mut [u8]) -> Result<(), Refusal> {
    // SAFETY: each pointer and length are those of one slice that is borrowed for the call, and `out` is borrowed alone.
    Refusal::check(unsafe {
        ffi::owed_ledger_read(
            snapshot.as_ptr(),
            snapshot.len(),
            out.as_mut_ptr(),
            out.len(),
        )
    })
}

/// Reads a snapshot, prunes the ledger at the time `now`, writes the ledger after it to `out`, and to `reports` how many reports
/// there are, how many entries fell, and the reports.
///
/// ```
/// let mut snapshot = [0; 56];
/// owed_ledger::slices::make(4, 100, 50, 200, &mut snapshot)?;
/// let mut out = [0; 56];
/// let mut reports = [0xaa; 24];
/// owed_ledger::slices::prune(&snapshot, 1_000, &mut out, &mut reports)?;
/// assert_eq!(reports[..16], [0; 16]);
/// assert_eq!(reports[16..], [0xaa; 8]);
/// # Ok::<(), owed_ledger::Refusal>(())
/// ```
///
/// # Errors
///
/// [`NoSnapshot`](Refusal::NoSnapshot), [`NeverWritten`](Refusal::NeverWritten), [`NoTime`](Refusal::NoTime),
/// [`TooShort`](Refusal::TooShort), in this order.
pub fn prune(snapshot: &[u8], now: u64, out: &mut [u8], reports: &mut [u8]) -> Result<(), Refusal> {
    // SAFETY: each pointer and length are those of one slice that is borrowed for the call; `out` and `reports` are each borrowed
    // alone.
    Refusal::check(unsafe {
        ffi::owed_ledger_prune(
            snapshot.as_ptr(),
            snapshot.len(),
            now,
            out.as_mut_ptr(),
            out.len(),
            reports.as_mut_ptr(),
            reports.len(),
        )
    })
}

/// How many bytes the snapshot at the front of `bytes` has, by its own sizes; none where the sizes do not all stand there, or the
/// sum of them is past every number. It says nothing of whether the bytes are a snapshot.
///
/// ```
/// let mut out = [0; 100];
/// owed_ledger::slices::make(4, 100, 50, 200, &mut out)?;
/// assert_eq!(owed_ledger::slices::snapshot_len(&out), Some(56));
/// assert_eq!(owed_ledger::slices::snapshot_len(&out[..55]), None);
/// # Ok::<(), owed_ledger::Refusal>(())
/// ```
#[must_use]
pub fn snapshot_len(bytes: &[u8]) -> Option<usize> {
    let word = |i: usize| {
        let at = i.checked_mul(8)?;
        let word = bytes.get(at..at.checked_add(8)?)?;
        Some(u64::from_le_bytes(word.try_into().ok()?))
    };
    let size = |i: usize| usize::try_from(word(i)?).ok();
    // The counts, two words each, stand ahead of the other sizes.
    let sizes = size(4)?.checked_mul(2)?.checked_add(5)?;
    let lengths = sizes.checked_add(2)?;
    let entries = size(sizes)?;
    let departures = size(sizes.checked_add(1)?)?;
    let mut words = departures
        .checked_mul(4)?
        .checked_add(entries)?
        .checked_add(lengths)?;
    for i in 0..entries {
        words = words.checked_add(size(i.checked_add(lengths)?)?)?;
    }
    words.checked_mul(8)
}
