//! Spoils a call's numbers: values one past their ends, wrong codes, sizes and lengths.

use reference::{LAST_SHARD, LAST_TIME};

use crate::random::Random;

/// Values of which each breaks some rule somewhere.
const ODD: [u64; 14] = [
    0,
    1,
    2,
    3,
    4,
    5,
    9,
    33,
    49,
    LAST_SHARD,
    LAST_SHARD + 1,
    LAST_TIME,
    LAST_TIME + 1,
    u64::MAX,
];

/// Make one to three changes; the count of numbers moves only where any count is read.
pub fn spoil(random: &mut Random, numbers: &mut Vec<u64>, any_count: bool) {
    for _ in 0..random.pick(&[1, 1, 2, 3]) {
        if any_count && random.percent(25) {
            resize(random, numbers);
        } else if any_count && random.percent(40) {
            overstep(random, numbers);
        } else {
            replace(random, numbers);
        }
    }
}

fn resize(random: &mut Random, numbers: &mut Vec<u64>) {
    match random.below(4) {
        0 => numbers.push(random.pick(&ODD)),
        1 => numbers.clear(),
        2 => numbers.truncate(random.below(numbers.len() as u64 + 1) as usize),
        _ => {
            numbers.pop();
        }
    }
}

/// Lift a word over its range where times stand in an admission or a short record, or at the
/// end, where its last shard stands: the sizes and codes before it stay as they are.
fn overstep(random: &mut Random, numbers: &mut [u64]) {
    let last = numbers.len().saturating_sub(1);
    let place = random.pick(&[1, 4, 5, 6, 7, last, last]);
    if let Some(word) = numbers.get_mut(place) {
        *word = random.pick(&[LAST_SHARD + 1, LAST_TIME + 1, u64::MAX]);
    }
}

fn replace(random: &mut Random, numbers: &mut [u64]) {
    let count = numbers.len() as u64;
    if count == 0 {
        return;
    }
    let place = random.below(count) as usize;
    let next = (place + 1) % numbers.len();
    match random.below(10) {
        0 => numbers.swap(place, next),
        1 => numbers[next] = numbers[place],
        2 => numbers[place] = LAST_TIME + 1,
        3 => numbers[place] = LAST_SHARD + 1,
        4 => numbers[place] = 0,
        _ => numbers[place] = random.pick(&ODD),
    }
}
