//! The few values that one script draws from, chosen close together so that they collide.

use reference::{FILLER, LAST_SHARD, LAST_TIME, LONGEST_SPAN};

use crate::profiles::Profile;
use crate::random::Random;

pub struct Pools {
    pub local: u64,
    pub spans: [u64; 3],
    pub transactions: Vec<u64>,
    pub shards: Vec<u64>,
    pub routes: Vec<u64>,
    /// Shards of the pool that own a route which local does not; local itself if there is none.
    pub owners: Vec<u64>,
    /// Times about the script's base: deadlines, anchors, cuts, stamps.
    pub near: Vec<u64>,
    /// Times a span after those.
    pub far: Vec<u64>,
    pub ids: Vec<u64>,
}

impl Pools {
    pub fn of(random: &mut Random, profile: &Profile) -> Self {
        let local = local(random);
        let spans = [span(random), span(random), span(random)];
        let shards = shards(random, local, profile.shards);
        let base = base(random, spans);
        let near: Vec<u64> = (0..4)
            .map(|step| (base + step).saturating_sub(1).min(LAST_TIME))
            .collect();
        let far = spans
            .iter()
            .flat_map(|span| near.iter().map(move |time| (time + span).min(LAST_TIME)))
            .collect();
        let routes = routes(random, local, &shards, profile.routes);
        Self {
            local,
            spans,
            transactions: transactions(random, profile.transactions),
            owners: owners(local, &shards, &routes),
            routes,
            shards,
            near,
            far,
            ids: ids(random),
        }
    }
}

/// A shard of the given depth, at either end of its level or anywhere on it.
fn shard_at(random: &mut Random, depth: u64) -> u64 {
    let low = 1 << depth;
    match random.below(4) {
        0 => low,
        1 => 2 * low - 1,
        _ => low + random.below(low),
    }
}

fn local(random: &mut Random) -> u64 {
    match random.below(10) {
        0..4 => 4,
        4 => 1,
        5 => shard_at(random, 32),
        6 => LAST_SHARD,
        7 => shard_at(random, 1),
        _ => {
            let depth = random.below(33);
            shard_at(random, depth)
        }
    }
}

fn span(random: &mut Random) -> u64 {
    match random.below(8) {
        0 => 1,
        1 => LONGEST_SPAN,
        2 => LONGEST_SPAN - 1,
        3 => 100,
        _ => random.between(1, 12),
    }
}

/// Where the near times lie: at zero, in the middle, or where a span reaches past the last.
fn base(random: &mut Random, spans: [u64; 3]) -> u64 {
    match random.below(8) {
        0 => 0,
        1 => LAST_TIME - 1,
        2 => LAST_TIME - random.pick(&spans),
        3 => LAST_TIME - LONGEST_SPAN,
        4 => random.below(LAST_TIME),
        _ => random.between(1, 1000),
    }
}

/// Local with its kin in the trie first, then shards of any depth.
fn shards(random: &mut Random, local: u64, count: u64) -> Vec<u64> {
    let mut found = vec![local];
    let kin = [
        local ^ 1,
        local / 2,
        local * 2,
        local * 2 + 1,
        local / 4,
        1,
        LAST_SHARD,
    ];
    while (found.len() as u64) < count {
        let shard = match random.below(3) {
            0 => random.pick(&kin),
            1 => {
                let depth = random.below(6);
                shard_at(random, depth)
            }
            _ => {
                let depth = random.below(33);
                shard_at(random, depth)
            }
        };
        if (1..=LAST_SHARD).contains(&shard) && !found.contains(&shard) {
            found.push(shard);
        }
        if count <= 3 && random.percent(10) {
            break;
        }
    }
    found
}

/// The first and last route of a shard, and those just outside.
fn edges_of(shard: u64) -> [u64; 4] {
    let depth = 63 - shard.leading_zeros();
    let below = 64 - depth;
    let low = if depth == 0 {
        0
    } else {
        (shard - (1 << depth)) << below
    };
    let high = if depth == 0 {
        u64::MAX
    } else {
        low + ((1 << below) - 1)
    };
    [low, high, low.wrapping_sub(1), high.wrapping_add(1)]
}

fn owns(shard: u64, route: u64) -> bool {
    let [low, high, ..] = edges_of(shard);
    (low..=high).contains(&route)
}

fn owners(local: u64, shards: &[u64], routes: &[u64]) -> Vec<u64> {
    let remote = |shard: &u64| {
        routes
            .iter()
            .any(|route| owns(*shard, *route) && !owns(local, *route))
    };
    let found: Vec<u64> = shards.iter().copied().filter(remote).collect();
    if found.is_empty() { vec![local] } else { found }
}

fn routes(random: &mut Random, local: u64, shards: &[u64], most: u64) -> Vec<u64> {
    let mut found = edges_of(local).to_vec();
    for _ in 0..random.between(1, most) {
        let shard = random.pick(shards);
        let any = random.word();
        let edges = edges_of(shard);
        let inside = edges[0] + any % (edges[1] - edges[0]).max(1);
        found.push(random.pick(&[edges[0], edges[1], edges[2], edges[3], inside, any]));
    }
    if random.percent(5) {
        found.push(FILLER);
    }
    found
}

fn transactions(random: &mut Random, count: u64) -> Vec<u64> {
    let mut found: Vec<u64> = (1..=count).collect();
    for _ in 0..random.below(3) {
        let word = random.word();
        found.push(random.pick(&[0, u64::MAX, FILLER, 1 << 32, 1 << 63, word]));
    }
    found
}

/// Several ids to a record key, and keys of which some are the ends of their range.
fn ids(random: &mut Random) -> Vec<u64> {
    let mut found = Vec::new();
    for _ in 0..random.between(1, 8) {
        let any = random.word() % (1 << 32);
        let key = random.pick(&[0, 7, (1 << 32) - 1, any]);
        found.push(key);
        found.push(key + (random.between(0, 2) << 32));
    }
    found
}
