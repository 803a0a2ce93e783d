//! What the tests share: the ledger in plain Rust, random ledgers, and slices with guards around them.
#![allow(dead_code)]

pub mod guarded;
pub mod plain;
pub mod random;
