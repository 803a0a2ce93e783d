//! The wrappers that say how far a value has been checked. Nothing is checked here, so
//! both only pass their content through.

use std::ops::Deref;

#[derive(Debug, Clone, PartialEq, Eq)]
pub struct Verified<T>(T);

impl<T> Verified<T> {
    pub const fn from_persisted(raw: T) -> Self {
        Self(raw)
    }
}

impl<T> Deref for Verified<T> {
    type Target = T;

    fn deref(&self) -> &T {
        &self.0
    }
}

#[derive(Debug, Clone, PartialEq, Eq)]
pub struct Verifiable<T>(pub T);

impl<T> Verifiable<T> {
    /// Always the content back, so that ledger.rs takes its way through `from_persisted`.
    pub fn into_verified(self) -> Result<Verified<T>, T> {
        Err(self.0)
    }
}

impl<T> Deref for Verifiable<T> {
    type Target = T;

    fn deref(&self) -> &T {
        &self.0
    }
}
