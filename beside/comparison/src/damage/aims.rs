//! What is never written of a ledger, one thing at a time: words out of their range, out of order, or such as no part or stamp goes with.

use reference::{ABSENCES, CORE, COUNTS, DESTINATIONS, EDGES, LAST_SHARD, LAST_TIME, LONGEST_SPAN};

use super::{
    Aim, CORE_MEMBER, LEG, REMAINDER, WHOLE, any, counted, departure, divided, edge, entry,
    settling,
};
use crate::image::{Edge, Entry, Image};
use crate::random::Random;

const NO_SHARDS: [u64; 3] = [0, LAST_SHARD + 1, u64::MAX];
const NO_TIMES: [u64; 2] = [LAST_TIME + 1, u64::MAX];
const NO_SPANS: [u64; 3] = [0, LONGEST_SPAN + 1, u64::MAX];

/// Each breaks one rule about what is written, and as few others as may be. Those stand more than once that find less to break, or break several.
pub const AIMS: [Aim; 45] = [
    local,
    span,
    count_shard,
    count_order,
    count_none,
    entry_order,
    time,
    core_shard,
    core_order,
    from,
    kind,
    to_shard,
    to_order,
    decomposed,
    part,
    part,
    whole_core,
    whole_edges,
    whole_marks,
    whole_returned,
    leg_in_core,
    core_without,
    core_without,
    nothing_owed,
    nothing_owed,
    core_marks,
    core_returned,
    certificate,
    named,
    returned,
    returned,
    returned_bare,
    absences,
    absences,
    mark_order,
    mark_order,
    mark_foreign,
    departure_order,
    departure_shard,
    departure_times,
    departure_times,
    departure_stamps,
    departure_stamps,
    departure_stamps,
    shifted,
];

/// Swap two neighbours, or say one of them twice; none where there are no two.
fn disorder<T: Clone>(random: &mut Random, items: &mut [T]) -> Option<()> {
    let place = random.between(0, items.len().checked_sub(2)? as u64) as usize;
    if random.percent(50) {
        items.swap(place, place + 1);
    } else {
        items[place + 1] = items[place].clone();
    }
    Some(())
}

/// One more item, rising or at its limit instead of another, that is no shard.
fn no_shard(random: &mut Random, shards: &mut Vec<u64>, limit: u64) {
    let none = random.pick(&NO_SHARDS);
    if shards.len() as u64 == limit {
        shards.remove(0);
    }
    shards.push(none);
    shards.sort_unstable();
}

fn local(random: &mut Random, image: &mut Image) -> Option<()> {
    image.head[0] = random.pick(&NO_SHARDS);
    Some(())
}

fn span(random: &mut Random, image: &mut Image) -> Option<()> {
    image.head[random.between(1, 3) as usize] = random.pick(&NO_SPANS);
    Some(())
}

/// A count of no shard, at the end where it is in order; in place of one where the counts are all that there may be.
fn count_shard(random: &mut Random, image: &mut Image) -> Option<()> {
    let none = random.pick(&NO_SHARDS);
    image.counts.truncate(COUNTS - 1);
    image.counts.push([none, 1]);
    image.counts.sort_unstable();
    Some(())
}

/// Two counts swapped, one said twice, or two of one shard.
fn count_order(random: &mut Random, image: &mut Image) -> Option<()> {
    let local = image.head[0];
    match image.counts.len() {
        0 => image.counts.extend([[local, 1], [local, 2]]),
        1 => image.counts.push([image.counts[0][0], 1]),
        _ => disorder(random, &mut image.counts)?,
    }
    Some(())
}

fn count_none(random: &mut Random, image: &mut Image) -> Option<()> {
    counted(random, image)[1] = 0;
    Some(())
}

fn entry_order(random: &mut Random, image: &mut Image) -> Option<()> {
    if random.percent(50) {
        return disorder(random, &mut image.entries);
    }
    let place = random.between(0, image.entries.len().checked_sub(2)? as u64) as usize;
    image.entries[place + 1].figures[0] = image.entries[place].figures[0];
    Some(())
}

fn time(random: &mut Random, image: &mut Image) -> Option<()> {
    let one = entry(random, image, |_| true)?;
    one.figures[random.between(1, 3) as usize] = random.pick(&NO_TIMES);
    Some(())
}

fn core_shard(random: &mut Random, image: &mut Image) -> Option<()> {
    let one = divided(random, image)?;
    no_shard(random, &mut one.core, CORE);
    Some(())
}

fn core_order(random: &mut Random, image: &mut Image) -> Option<()> {
    let one = entry(random, image, |one| one.core.len() > 1)?;
    disorder(random, &mut one.core)
}

fn from(random: &mut Random, image: &mut Image) -> Option<()> {
    edge(random, image)?.from = random.pick(&NO_SHARDS);
    Some(())
}

fn kind(random: &mut Random, image: &mut Image) -> Option<()> {
    edge(random, image)?.kind = random.pick(&[2, u64::MAX]);
    Some(())
}

fn to_shard(random: &mut Random, image: &mut Image) -> Option<()> {
    let one = edge(random, image)?;
    no_shard(random, &mut one.to, DESTINATIONS);
    Some(())
}

fn to_order(random: &mut Random, image: &mut Image) -> Option<()> {
    let edges = image.entries.iter_mut().flat_map(|one| &mut one.edges);
    let one = any(random, edges.filter(|edge| edge.to.len() > 1))?;
    disorder(random, &mut one.to)
}

fn decomposed(random: &mut Random, image: &mut Image) -> Option<()> {
    let one = entry(random, image, |_| true)?;
    let code = &mut one.figures[5];
    *code = random.pick(&[1 - (*code).min(1), 1 - (*code).min(1), 2, u64::MAX]);
    Some(())
}

fn part(random: &mut Random, image: &mut Image) -> Option<()> {
    let one = entry(random, image, |_| true)?;
    one.part = random.pick(&[WHOLE, LEG, CORE_MEMBER, REMAINDER, 4, 4, u64::MAX]);
    Some(())
}

fn whole_core(random: &mut Random, image: &mut Image) -> Option<()> {
    let local = image.head[0];
    let one = entry(random, image, |one| one.part == WHOLE)?;
    one.core = vec![random.pick(&[local, 1, LAST_SHARD])];
    Some(())
}

fn whole_edges(random: &mut Random, image: &mut Image) -> Option<()> {
    let local = image.head[0];
    let one = entry(random, image, |one| one.part == WHOLE)?;
    one.edges = vec![Edge {
        id: 7,
        from: local,
        kind: 1,
        to: vec![local],
    }];
    Some(())
}

fn whole_marks(random: &mut Random, image: &mut Image) -> Option<()> {
    let one = entry(random, image, |one| one.part == WHOLE)?;
    one.marks = vec![random.below(8)];
    Some(())
}

fn whole_returned(random: &mut Random, image: &mut Image) -> Option<()> {
    entry(random, image, |one| one.part == WHOLE)?.returned = 1;
    Some(())
}

fn leg_in_core(random: &mut Random, image: &mut Image) -> Option<()> {
    let local = image.head[0];
    let one = entry(random, image, |one| one.part == LEG)?;
    one.core.truncate(CORE as usize - 1);
    one.core.push(local);
    one.core.sort_unstable();
    Some(())
}

fn core_without(random: &mut Random, image: &mut Image) -> Option<()> {
    let local = image.head[0];
    let in_core = |one: &Entry| matches!(one.part, CORE_MEMBER | REMAINDER);
    let one = entry(random, image, in_core)?;
    one.core.retain(|shard| *shard != local);
    Some(())
}

fn nothing_owed(random: &mut Random, image: &mut Image) -> Option<()> {
    let local = image.head[0];
    let one = entry(random, image, |one| one.part == REMAINDER)?;
    let own = one.edges.iter_mut().filter(|edge| edge.from == local);
    own.for_each(|edge| edge.kind = 0);
    Some(())
}

fn core_marks(random: &mut Random, image: &mut Image) -> Option<()> {
    let one = entry(random, image, |one| one.part == CORE_MEMBER)?;
    let record = one.edges.first().map_or(7, |edge| edge.id % (1 << 32));
    one.marks = vec![record];
    Some(())
}

fn core_returned(random: &mut Random, image: &mut Image) -> Option<()> {
    entry(random, image, |one| one.part == CORE_MEMBER)?.returned = 1;
    Some(())
}

fn certificate(random: &mut Random, image: &mut Image) -> Option<()> {
    entry(random, image, |_| true)?.certificate = random.pick(&[3, u64::MAX]);
    Some(())
}

fn named(random: &mut Random, image: &mut Image) -> Option<()> {
    entry(random, image, |_| true)?.named = random.pick(&NO_SHARDS[1..]);
    Some(())
}

fn returned(random: &mut Random, image: &mut Image) -> Option<()> {
    let one = entry(random, image, |one| !one.marks.is_empty())?;
    one.returned = random.pick(&[2, u64::MAX]);
    Some(())
}

fn returned_bare(random: &mut Random, image: &mut Image) -> Option<()> {
    let one = settling(random, image)?;
    one.returned = 1;
    one.marks.clear();
    Some(())
}

/// Of no shard, out of order by shard or by key alone, or twice.
fn absences(random: &mut Random, image: &mut Image) -> Option<()> {
    let one = entry(random, image, |_| true)?;
    let pairs = &mut one.absences;
    pairs.truncate(ABSENCES - 2);
    match random.below(5) {
        0 => pairs.insert(0, [0, random.below(8)]),
        1 => pairs.push([random.pick(&NO_SHARDS[1..]), 0]),
        2 => pairs.extend([[LAST_SHARD, 8], [LAST_SHARD, 7]]),
        3 => pairs.extend([[LAST_SHARD, 7], [LAST_SHARD, 7]]),
        _ => disorder(random, pairs)?,
    }
    Some(())
}

/// Two marks swapped, or one said twice.
fn mark_order(random: &mut Random, image: &mut Image) -> Option<()> {
    let one = entry(random, image, |one| !one.marks.is_empty())?;
    if one.marks.len() == 1 {
        one.marks.push(one.marks[0]);
        return Some(());
    }
    disorder(random, &mut one.marks)
}

/// The key of an edge that starts elsewhere, an id where its key stands, or a key that no edge has.
fn mark_foreign(random: &mut Random, image: &mut Image) -> Option<()> {
    let one = settling(random, image)?;
    let any_key = random.below(9);
    let ids: Vec<u64> = one.edges.iter().map(|edge| edge.id).collect();
    let id = *ids.get(random.below(8) as usize).unwrap_or(&any_key);
    let key = id % (1 << 32);
    one.marks.truncate(EDGES as usize - 1);
    one.marks
        .push(random.pick(&[key, key + 1, key + (1 << 32), u64::MAX]));
    one.marks.sort_unstable();
    one.marks.dedup();
    Some(())
}

fn departure_order(random: &mut Random, image: &mut Image) -> Option<()> {
    disorder(random, &mut image.departures)
}

fn departure_shard(random: &mut Random, image: &mut Image) -> Option<()> {
    let none = random.pick(&NO_SHARDS);
    let last = image.departures.len().checked_sub(1)?;
    image.departures[if none == 0 { 0 } else { last }][0] = none;
    Some(())
}

fn departure_times(random: &mut Random, image: &mut Image) -> Option<()> {
    let stamped = random.below(2);
    let one = departure(random, image, stamped)?;
    let place = if stamped == 1 {
        random.pick(&[1, 3])
    } else {
        1
    };
    one[place] = random.pick(&NO_TIMES);
    Some(())
}

/// A code over 1, or an until where no stamp is.
fn departure_stamps(random: &mut Random, image: &mut Image) -> Option<()> {
    if random.percent(40) {
        let stamped = random.below(2);
        departure(random, image, stamped)?[2] = random.pick(&[2, u64::MAX]);
    } else if random.percent(50) {
        departure(random, image, 1)?[2] = 0;
    } else {
        departure(random, image, 0)?[3] = random.pick(&[1, LAST_TIME, u64::MAX]);
    }
    Some(())
}

/// Sizes that say other things of the same words: a word of the routes is then one of the core, or the other way.
fn shifted(random: &mut Random, image: &mut Image) -> Option<()> {
    let one = divided(random, image)?;
    if random.percent(50) {
        let route = one.routes.pop()?;
        one.core.insert(0, route);
    } else {
        let first = (!one.core.is_empty()).then(|| one.core.remove(0))?;
        one.routes.push(first);
    }
    Some(())
}
