//! What a script leans on: each profile sets pool sizes and shares, and favours some calls.

use crate::random::Random;

pub struct Profile {
    pub transactions: u64,
    pub shards: u64,
    /// Routes at most, beside the four about local's ends.
    pub routes: u64,
    /// Shares in percent: decomposed admissions, sizes at their limits, admissions whose edges
    /// are all local's own with a key each, spoilt calls, and groups of lines that let all
    /// owners of remote routes leave.
    pub decomposed: u64,
    pub wide: u64,
    pub own: u64,
    pub breach: u64,
    pub silence: u64,
    /// Lines to fill tables with before the mixed ones, and the call that fills.
    pub fill: (u64, &'static str),
    pub lines: (u64, u64),
    /// Calls that come six times as often.
    pub favour: &'static [&'static str],
}

const MIXED: Profile = Profile {
    transactions: 6,
    shards: 6,
    routes: 10,
    decomposed: 60,
    wide: 5,
    own: 3,
    breach: 6,
    silence: 1,
    fill: (0, ""),
    lines: (10, 60),
    favour: &[],
};

/// Forty-eight entries and more, with few edges.
const FULL: Profile = Profile {
    transactions: 64,
    shards: 8,
    breach: 3,
    wide: 1,
    fill: (58, "register_committed"),
    lines: (8, 30),
    favour: &[
        "record_abandonment",
        "register_committed",
        "prune",
        "forget",
        "release_resolved",
    ],
    ..MIXED
};

/// Every entry at its largest.
const BRIM: Profile = Profile {
    shards: 16,
    decomposed: 90,
    wide: 95,
    fill: (58, "register_committed"),
    lines: (5, 20),
    favour: &[
        "settled",
        "returned",
        "closes",
        "prune",
        "release_resolved",
        "issuers_of",
    ],
    ..FULL
};

/// Eight records of its own for every entry, so that the index holds all of its pairs.
const INDEX: Profile = Profile {
    decomposed: 100,
    wide: 100,
    own: 100,
    ..BRIM
};

/// An entry that has every mark.
const MARKS: Profile = Profile {
    transactions: 1,
    decomposed: 95,
    wide: 90,
    own: 90,
    fill: (2, "register_committed"),
    lines: (40, 80),
    favour: &["settled", "settled", "returned", "issued_by", "claimants"],
    ..MIXED
};

const DEPARTURES: Profile = Profile {
    transactions: 8,
    shards: 44,
    decomposed: 20,
    silence: 3,
    fill: (38, "record_terminal"),
    lines: (10, 50),
    favour: &[
        "record_terminal",
        "stamp_terminal",
        "counterparts",
        "certify",
        "prune",
    ],
    ..MIXED
};

const ABSENCES: Profile = Profile {
    transactions: 2,
    shards: 3,
    decomposed: 80,
    breach: 3,
    fill: (3, "register_committed"),
    lines: (20, 70),
    favour: &[
        "record_absence",
        "record_absence",
        "questions",
        "is_covered",
    ],
    ..MIXED
};

const CROSSINGS: Profile = Profile {
    transactions: 4,
    decomposed: 95,
    breach: 2,
    fill: (4, "register_committed"),
    favour: &[
        "settled",
        "returned",
        "closes",
        "release_resolved",
        "issuers_of",
        "claimants",
        "fated",
        "issued_by",
    ],
    ..MIXED
};

const CORES: Profile = Profile {
    transactions: 5,
    decomposed: 95,
    breach: 2,
    fill: (4, "register_committed"),
    favour: &[
        "questions",
        "answers",
        "open_at",
        "certify",
        "abandonment_answers",
        "release_resolved",
        "past_deadline",
        "prune",
    ],
    ..MIXED
};

const DEPARTING: Profile = Profile {
    transactions: 8,
    shards: 5,
    routes: 2,
    decomposed: 8,
    breach: 2,
    silence: 4,
    wide: 2,
    own: 3,
    fill: (8, "register_committed"),
    lines: (20, 60),
    favour: &[
        "certify",
        "certify",
        "record_terminal",
        "record_terminal",
        "stamp_terminal",
        "stamp_terminal",
        "counterparts",
        "reaches_beyond",
    ],
};

const BREACHES: Profile = Profile {
    breach: 65,
    shards: 12,
    wide: 20,
    ..MIXED
};

const WIDE: Profile = Profile {
    transactions: 5,
    shards: 14,
    decomposed: 85,
    wide: 80,
    ..MIXED
};

/// Blocks handed over whole; and the same where they come upon full tables.
const BLOCKS: Profile = Profile {
    breach: 3,
    fill: (3, "bundle"),
    lines: (10, 30),
    favour: &["bundle", "bundle", "bundle"],
    ..MIXED
};

const FULL_BLOCKS: Profile = Profile {
    fill: (44, "register_committed"),
    favour: &["bundle", "bundle", "forget", "prune"],
    ..FULL
};

const DEPARTING_BLOCKS: Profile = Profile {
    fill: (32, "record_terminal"),
    favour: &["bundle", "bundle", "certify", "prune"],
    ..DEPARTURES
};

const ABSENT_BLOCKS: Profile = Profile {
    favour: &["bundle", "bundle", "record_absence"],
    ..ABSENCES
};

/// Snapshots of ledgers that hold some of everything.
const SNAPSHOTS: Profile = Profile {
    transactions: 5,
    decomposed: 80,
    own: 30,
    breach: 2,
    fill: (5, "register_committed"),
    lines: (20, 50),
    favour: &[
        "restore",
        "snapshot",
        "release_resolved",
        "record_absence",
        "settled",
        "returned",
    ],
    ..MIXED
};

/// Records of more shards than rebuilt entries are counted for. At any prune falls what they brought and no departure keeps.
const RECORDS: Profile = Profile {
    transactions: 64,
    shards: 44,
    decomposed: 20,
    breach: 4,
    wide: 1,
    fill: (40, "record_abandonment"),
    lines: (10, 40),
    favour: &[
        "record_abandonment",
        "record_abandonment",
        "record_abandonment",
        "register_committed",
        "rebuilt_by_shard",
        "rebuilt",
        "forget",
        "prune",
    ],
    ..MIXED
};

const RECORDED_BLOCKS: Profile = Profile {
    favour: &["bundle", "bundle", "prune", "rebuilt_by_shard"],
    ..RECORDS
};

/// Few shards, whose counts come back from snapshots about their ends.
const COUNTS: Profile = Profile {
    transactions: 8,
    shards: 3,
    decomposed: 40,
    breach: 2,
    fill: (6, "record_abandonment"),
    lines: (20, 50),
    favour: &[
        "record_abandonment",
        "record_abandonment",
        "restore",
        "rebuilt",
        "rebuilt_by_shard",
        "forget",
    ],
    ..MIXED
};

/// Trees over entries whose routes' shards depart.
const TREES: Profile = Profile {
    transactions: 6,
    shards: 8,
    routes: 8,
    wide: 10,
    fill: (6, "register_committed"),
    lines: (20, 50),
    favour: &[
        "counterparts_by_tree",
        "counterparts_by_tree",
        "leaf_for_route",
        "leaves",
        "record_terminal",
    ],
    ..DEPARTING
};

/// Each with its weight.
const PROFILES: [(u64, &Profile); 21] = [
    (20, &MIXED),
    (6, &FULL),
    (2, &BRIM),
    (2, &INDEX),
    (3, &MARKS),
    (8, &DEPARTURES),
    (8, &ABSENCES),
    (14, &CROSSINGS),
    (12, &CORES),
    (14, &DEPARTING),
    (10, &BREACHES),
    (6, &WIDE),
    (14, &BLOCKS),
    (4, &FULL_BLOCKS),
    (4, &DEPARTING_BLOCKS),
    (4, &ABSENT_BLOCKS),
    (10, &SNAPSHOTS),
    (6, &RECORDS),
    (4, &RECORDED_BLOCKS),
    (12, &COUNTS),
    (10, &TREES),
];

pub fn pick(random: &mut Random) -> &'static Profile {
    let mut left = random.below(PROFILES.iter().map(|(weight, _)| weight).sum());
    for (weight, profile) in PROFILES {
        if left < weight {
            return profile;
        }
        left -= weight;
    }
    &MIXED
}
