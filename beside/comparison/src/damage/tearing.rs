//! Changes words without regard to what they say.

use crate::random::Random;

/// Change one word or two, where the words end, or a size or length among them.
pub fn tear(random: &mut Random, words: &mut Vec<u64>) {
    let place =
        |random: &mut Random, words: &[u64]| random.below(words.len().max(1) as u64) as usize;
    let at = place(random, words);
    match random.below(14) {
        0 => words.truncate(words.len().saturating_sub(1)),
        1 => words.truncate(at),
        2 if !words.is_empty() => drop(words.remove(at)),
        3 => words.push(random.below(3)),
        4 => words.insert(at, random.below(3)),
        5..7 => sizes(random, words),
        7..9 => lengths(random, words),
        9 if words.len() > 1 => {
            let other = place(random, words);
            words.swap(at, other);
        }
        _ if !words.is_empty() => words[at] = near(random, words, at),
        _ => words.push(0),
    }
}

/// One off a word, an end of the words, or a neighbour's value.
fn near(random: &mut Random, words: &[u64], at: usize) -> u64 {
    let word = words[at];
    let next = words[(at + 1) % words.len()];
    let around = [word.wrapping_add(1), word.wrapping_sub(1)];
    random.pick(&[
        around[0],
        around[1],
        around[0],
        around[1],
        next,
        0,
        1,
        u64::MAX,
    ])
}

/// The place of the number of counts.
const COUNTS: usize = 4;

/// The place of the number of entries, behind the counts.
fn entries(words: &[u64]) -> usize {
    COUNTS + 1 + 2 * words.get(COUNTS).map_or(0, |k| *k as usize % 64)
}

/// The number of counts, entries or departures, or one of an entry's first three sizes.
fn sizes(random: &mut Random, words: &mut [u64]) {
    let n = entries(words);
    let first = n + 2 + words.get(n).map_or(0, |n| *n as usize % 64);
    let at = random.pick(&[COUNTS, n, n + 1, first, first + 1, first + 2]);
    let Some(size) = words.get_mut(at) else {
        return;
    };
    let one_off = [size.wrapping_add(1), size.wrapping_sub(1)];
    // These would make up a length again if anything were multiplied or added before it is within its limit.
    let wraps = [1 << 62, 1 << 63, u64::MAX];
    let sizes = [&one_off[..], &one_off, &[9, 33, 49], &wraps].concat();
    *size = random.pick(&sizes);
}

/// A length one off, or two that make up for each other.
fn lengths(random: &mut Random, words: &mut [u64]) {
    let n = entries(words);
    let many = words.get(n).map_or(0, |n| *n as usize);
    let Some(lengths) = words.get_mut(n + 2..).and_then(|rest| rest.get_mut(..many)) else {
        return;
    };
    let Some(last) = lengths.len().checked_sub(1) else {
        return;
    };
    let by = random.pick(&[1, 1, 4, u64::MAX, 1 << 63]);
    let at = random.between(0, last as u64) as usize;
    lengths[at] = lengths[at].wrapping_add(by);
    if random.percent(50) {
        let other = random.between(0, last as u64) as usize;
        lengths[other] = lengths[other].wrapping_sub(by);
    }
}
