//! Counts the entries that a prune judged by one rule while at and end lay on different sides of the clock, and those that rule 2 or 5 would have
//! judged otherwise by the other of the two. What these rules say is held to the time that each reads: end + L and at + V.

use std::fmt;

use reference::{Standing, Tally};

use crate::prunes::Rule;

/// How many stood and how many fell.
#[derive(Clone, Copy, Default)]
pub struct Went {
    pub stood: u64,
    pub fell: u64,
}

#[derive(Clone, Copy, Default)]
pub struct Sides {
    /// At has come and end has not; end has come and at has not.
    pub at_alone: Went,
    pub end_alone: Went,
    /// Rule 2 read from at, or rule 5 from end, would have said otherwise.
    pub otherwise: Went,
}

/// Stands above the columns of each rule.
pub const HEAD: &str = "at and end apart: stood, fell                 only at has come     only end has come  the other: otherwise";

impl Sides {
    /// Count an entry that was judged at `now` by the rule, of the ledger before.
    pub fn count(&mut self, now: u64, rule: Rule, entry: &Standing, before: &Tally, stood: bool) {
        match (entry.at <= now, entry.end <= now) {
            (true, false) => self.at_alone.count(stood),
            (false, true) => self.end_alone.count(stood),
            _ => {}
        }
        let (read, other) = match rule {
            Rule::Leg | Rule::Absent => (entry.end + before.leg_entry, entry.at + before.leg_entry),
            Rule::Deadline => (entry.at + before.validity, entry.end + before.validity),
            _ => return,
        };
        assert_eq!(stood, read > now, "judged by another time than its rule's");
        if stood != (other > now) {
            self.otherwise.count(stood);
        }
    }
}

impl Went {
    fn count(&mut self, stood: bool) {
        self.stood += u64::from(stood);
        self.fell += u64::from(!stood);
    }
}

impl fmt::Display for Sides {
    fn fmt(&self, f: &mut fmt::Formatter) -> fmt::Result {
        for Went { stood, fell } in [self.at_alone, self.end_alone, self.otherwise] {
            write!(f, " {stood:>10} {fell:>10}")?;
        }
        Ok(())
    }
}
