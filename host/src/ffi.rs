//! The functions of the static library as they are declared to C, in `include/owed_ledger.h`. Nothing but [`slices`](crate::slices)
//! needs them.
//!
//! # Safety
//!
//! Each pointer and length must be those of one slice of bytes, which may be read, and written where the pointer is `*mut`, while
//! the call lasts. A slice that is written overlaps no other slice of the call. With a length of 0 any pointer will do, null too.

// A slice crosses as a pointer and a length. `crates/owed_ledger/src/lib.rt` has the functions; nothing compares these declarations with it
// but the tests, so both are edited together.
unsafe extern "C" {
    /// Makes an empty ledger.
    pub fn owed_ledger_make(
        local: u64,
        v: u64,
        c: u64,
        l: u64,
        out: *mut u8,
        out_len: usize,
    ) -> u64;

    /// Reads a ledger.
    pub fn owed_ledger_read(snapshot: *const u8, len: usize, out: *mut u8, out_len: usize) -> u64;

    /// Reads and prunes a ledger.
    pub fn owed_ledger_prune(
        snapshot: *const u8,
        len: usize,
        now: u64,
        out: *mut u8,
        out_len: usize,
        reports: *mut u8,
        reports_len: usize,
    ) -> u64;
}
