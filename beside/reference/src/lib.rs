//! The original ledger, run by call scripts, with the paper's refusal table in front.

mod book;
mod bundle;
mod changing;
mod faults;
mod readings;
mod refusals;
mod script;
mod snapshot;
mod table;
mod tree;
mod words;

// The ledger itself, from the build's folder. What the paper leaves out of it is dead here.
#[allow(
    dead_code,
    unused_imports,
    clippy::all,
    clippy::pedantic,
    clippy::nursery
)]
mod original {
    include!(concat!(env!("OUT_DIR"), "/module.rs"));
}

pub use book::{Book, Held, Holder, Leaving, Remote, Standing, Tally};
pub use bundle::{KINDS, Kind, keep_no_copy};
pub use faults::{FAULTS, Fault};
pub use original::ledger;
pub use refusals::{
    ABSENCES, CORE, COUNTS, DEEPEST, DEPARTURES, DESTINATIONS, EDGES, ENTRIES, GROUPS, ITEMS,
    LAST_SHARD, LAST_TIME, LONGEST_SPAN, LOWEST_LEAF, ROUTES, TREE_MARKS,
};
pub use script::{FILLER, MOST_LENT, MOST_NUMBERS, Reply, Runner, run};
pub use snapshot::{BREAKS, Broken, Entry, Snapshot};
pub use table::{CALLS, Call, Given, Numbers, call_named};
