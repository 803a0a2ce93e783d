//! Stand-in for the engine: a classification as an admission's words give it.

pub mod legs;
