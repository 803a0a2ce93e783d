//! Brings one size of a snapshot to its limit or one over, with everything else as that size has it.

use reference::{
    ABSENCES, CORE, COUNTS, DEPARTURES, DESTINATIONS, EDGES, ENTRIES, LAST_SHARD, ROUTES,
};

use super::{any, entry};
use crate::image::Image;
use crate::random::Random;

/// A list of an entry at its limit, or with one more.
pub fn fill_entry(random: &mut Random, image: &mut Image) -> Option<()> {
    let (local, over) = (image.head[0], random.below(2));
    let one = entry(random, image, |_| true)?;
    match random.below(6) {
        0 => one.routes.resize((ROUTES + over) as usize, local),
        1 => rise(&mut one.core, CORE + over),
        2 => {
            let size = (EDGES + over) as usize;
            let more = one.edges.last()?.clone();
            one.edges.resize(size, more);
        }
        3 => {
            let edge = any(random, one.edges.iter_mut())?;
            rise(&mut edge.to, DESTINATIONS + over);
        }
        4 => {
            let after = one.absences.last().map_or(1, |pair| pair[0]);
            let mut key = one.absences.last().map_or(0, |pair| pair[1]);
            while one.absences.len() < ABSENCES + over as usize {
                key = key.saturating_add(1);
                one.absences.push([after, key]);
            }
        }
        _ => {
            let own = one.edges.iter().filter(|edge| edge.from == local);
            one.marks.extend(own.map(|edge| edge.id % (1 << 32)));
            one.marks.sort_unstable();
            one.marks.dedup();
            if over > 0 {
                rise(&mut one.marks, EDGES + 1);
            }
        }
    }
    Some(())
}

/// As many entries or departures as there may be, or one more.
pub fn fill_table(random: &mut Random, image: &mut Image) -> Option<()> {
    let over = random.below(2) as usize;
    if random.percent(50) {
        let mut last = *image.departures.last()?;
        while image.departures.len() < DEPARTURES + over {
            last[0] += 1;
            image.departures.push(last);
        }
    } else {
        let mut last = image.entries.last()?.clone();
        while image.entries.len() < ENTRIES + over {
            last.figures[0] = last.figures[0].wrapping_add(1);
            image.entries.push(last.clone());
        }
    }
    Some(())
}

/// One below as many counts as there may be, as many, or one more: of the next shards that have none.
pub fn fill_counts(random: &mut Random, image: &mut Image) -> Option<()> {
    let size = random.pick(&[COUNTS - 1, COUNTS, COUNTS, COUNTS + 1]);
    let first = random.pick(&[1, image.head[0], LAST_SHARD - size as u64]);
    for shard in (first..=LAST_SHARD).chain(1..first) {
        let known = image.counts.iter().any(|pair| pair[0] == shard);
        if image.counts.len() >= size {
            break;
        } else if !known {
            image.counts.push([shard, random.between(1, 3)]);
        }
    }
    image.counts.sort_unstable();
    Some(())
}

/// Make the list so long, each new item by one above the last.
fn rise(items: &mut Vec<u64>, size: u64) {
    while (items.len() as u64) < size {
        items.push(items.last().map_or(1, |last| last.wrapping_add(1)));
    }
}
