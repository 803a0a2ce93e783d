//! Stand-in for the virtual machine's types: a key is one word, pricing is empty.

/// A cell's name. Any word: record keys and cell keys share this type.
#[derive(Debug, Clone, Copy, PartialEq, Eq, PartialOrd, Ord)]
pub struct SubstateKey(pub u64);

/// Names the hash that a key is derived with; the stand-ins hash nothing.
pub struct ProtocolHasher;

/// Pricing is outside the paper, so the table holds nothing.
pub struct PriceTable;

/// A price under that table, equally empty.
pub struct Quanta;
