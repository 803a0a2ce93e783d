//! Times, deadlines and the three spans, which the Rust has as constants.
//!
//! A making chooses the spans here, so they stand in a cell of the thread that `Spans::stand`
//! fills before a call.

use std::cell::Cell;
use std::ops::Range;

/// V, C and L: the validity range, the Core window's length and the LegEntry window's.
#[derive(Debug, Clone, Copy, PartialEq, Eq)]
pub struct Spans {
    pub validity: u64,
    pub core: u64,
    pub leg_entry: u64,
}

impl Spans {
    pub const ONES: Self = Self {
        validity: 1,
        core: 1,
        leg_entry: 1,
    };

    /// Make these the spans that every window of this thread is read with.
    pub fn stand(self) {
        STANDING.set(self);
    }
}

thread_local! {
    static STANDING: Cell<Spans> = const { Cell::new(Spans::ONES) };
}

#[derive(Debug, Clone, Copy, PartialEq, Eq, PartialOrd, Ord)]
pub struct WeightedTimestamp(pub u64);

impl WeightedTimestamp {
    pub const fn as_millis(self) -> u64 {
        self.0
    }

    pub fn plus(self, _range: MaxValidityRange) -> Self {
        Self(self.0 + STANDING.get().validity)
    }
}

/// The type of the one constant: V itself is read where it is added.
pub struct MaxValidityRange;

pub const MAX_VALIDITY_RANGE: MaxValidityRange = MaxValidityRange;

#[derive(Debug, Clone, Copy, PartialEq, Eq)]
pub struct Deadline {
    at: WeightedTimestamp,
    end: WeightedTimestamp,
}

impl Deadline {
    pub const fn of(at: WeightedTimestamp, end: WeightedTimestamp) -> Self {
        Self { at, end }
    }

    pub const fn at(self) -> WeightedTimestamp {
        self.at
    }

    pub const fn validity_end(self) -> WeightedTimestamp {
        self.end
    }

    pub fn passed(self, now: WeightedTimestamp) -> bool {
        now >= self.at
    }
}

/// The window of a core entry's reads, and that of an entry which waits for what others settle: the first opens at
/// the deadline, the second at the end of the validity, as the protocol group has it now.
pub enum Window {
    Core,
    LegEntry,
}

impl Window {
    pub fn of(self, deadline: Deadline) -> Range<WeightedTimestamp> {
        let spans = STANDING.get();
        let (opens, length) = match self {
            Self::Core => (deadline.at(), spans.core),
            Self::LegEntry => (deadline.validity_end(), spans.leg_entry),
        };
        opens..WeightedTimestamp(opens.0 + length)
    }
}
