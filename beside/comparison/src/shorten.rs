//! Shortens a script while two programs still answer it differently.

use crate::image::Image;
use crate::items::{joined, written};
use crate::scripts::line;

/// Runs are bounded, since each one starts a program.
const MOST_RUNS: usize = 3000;
/// More bytes make a restore a long one.
const LONG: usize = 400;

/// Drop stretches of lines, halves first and single lines last, as long as `differs` holds.
pub fn shorten(script: &[u8], mut differs: impl FnMut(&[u8]) -> bool) -> Vec<u8> {
    let mut lines: Vec<&[u8]> = script.split_inclusive(|byte| *byte == b'\n').collect();
    let mut stretch = lines.len().div_ceil(2);
    let mut runs = 0;
    while stretch > 0 && runs < MOST_RUNS {
        let before = lines.len();
        let mut place = 0;
        while place < lines.len() && runs < MOST_RUNS {
            let end = (place + stretch).min(lines.len());
            let without = [&lines[..place], &lines[end..]].concat();
            runs += 1;
            if differs(&without.concat()) {
                lines = without;
            } else {
                place = end;
            }
        }
        // A single line that went may set free another one before it.
        let again = stretch == 1 && lines.len() < before;
        stretch = if again { 1 } else { stretch / 2 };
    }
    lines.concat()
}

/// Then drop items of bundles, each with its kind, its length and its words; entries, departures and counts of snapshots that are restored; and
/// splits and marks of trees.
pub fn thin(script: &[u8], mut differs: impl FnMut(&[u8]) -> bool) -> Vec<u8> {
    let mut lines: Vec<Vec<u8>> = script
        .split_inclusive(|byte| *byte == b'\n')
        .map(<[u8]>::to_vec)
        .collect();
    let mut runs = 0;
    for place in 0..lines.len() {
        let mut part = 0;
        while let Some(without) = without_part(&lines[place], part) {
            if runs == MOST_RUNS {
                break;
            }
            let kept = std::mem::replace(&mut lines[place], without);
            runs += 1;
            if !differs(&lines.concat()) {
                lines[place] = kept;
                part += 1;
            }
        }
    }
    lines.concat()
}

/// The line without one of its parts; none where it has no such part, is not well formed, or is of a call that has none.
fn without_part(text: &[u8], place: usize) -> Option<Vec<u8>> {
    let text = std::str::from_utf8(text).ok()?.strip_suffix('\n')?;
    let (name, numbers) = text.split_once(' ')?;
    let (numbers, lent) = match numbers.split_once(" lent ") {
        Some((numbers, lent)) => (numbers, Some(lent.parse().ok()?)),
        None => (numbers, None),
    };
    let numbers = numbers.split(' ').map(str::parse);
    let numbers = numbers.collect::<Result<Vec<u64>, _>>().ok()?;
    let numbers = match name {
        "bundle" => without_item(&numbers, place)?,
        "restore" => without_held(&numbers, place)?,
        "leaves" => without_mark(&numbers, 0, place)?,
        "leaf_for_route" | "counterparts_by_tree" => without_mark(&numbers, 1, place)?,
        _ => return None,
    };
    Some((line(name, &numbers, lent) + "\n").into_bytes())
}

/// A leaf in place of a split of two leaves or, told behind these, a mark less. So many numbers stand ahead of the marks.
fn without_mark(numbers: &[u64], ahead: usize, place: usize) -> Option<Vec<u64>> {
    let splits = (ahead..numbers.len()).filter(|at| numbers[*at..].starts_with(&[1, 0, 0]));
    let folded = splits.map(|at| [&numbers[..at], &numbers[at + 2..]].concat());
    let dropped = (ahead..numbers.len()).map(|at| [&numbers[..at], &numbers[at + 1..]].concat());
    folded.chain(dropped).nth(place)
}

fn without_item(numbers: &[u64], place: usize) -> Option<Vec<u64>> {
    let mut items = written(numbers);
    if joined(&items) != numbers || place >= items.len() {
        return None;
    }
    items.remove(place);
    Some(joined(&items))
}

/// A snapshot without one of its entries or, told behind these, its departures or its counts.
fn without_held(numbers: &[u64], place: usize) -> Option<Vec<u64>> {
    let mut image = Image::of(numbers)?;
    let [entries, departures] = [image.entries.len(), image.departures.len()];
    if place < entries {
        image.entries.remove(place);
    } else if place < entries + departures {
        image.departures.remove(place - entries);
    } else if place < entries + departures + image.counts.len() {
        image.counts.remove(place - entries - departures);
    } else {
        return None;
    }
    Some(image.words())
}

/// Then put 0 or 1 for every number that can be so without the difference going away. Those of a long restore stay as they are: they would
/// take up all the runs, and hardly one of them can be another without the rest.
pub fn simplify(script: &[u8], mut differs: impl FnMut(&[u8]) -> bool) -> Vec<u8> {
    let mut words: Vec<Vec<u8>> = words_of(script);
    let mut runs = 0;
    for place in 0..words.len() {
        for plain in [&b"0"[..], b"1"] {
            let number = words[place].iter().all(u8::is_ascii_digit) && words[place].len() > 1;
            if !number || runs == MOST_RUNS {
                break;
            }
            let kept = std::mem::replace(&mut words[place], plain.to_vec());
            runs += 1;
            if !differs(&words.concat()) {
                words[place] = kept;
            }
        }
    }
    words.concat()
}

/// The text cut into runs of digits and what lies between them, a long restore in one piece.
fn words_of(script: &[u8]) -> Vec<Vec<u8>> {
    let lines = script.split_inclusive(|byte| *byte == b'\n');
    lines
        .flat_map(|line| {
            let whole = line.starts_with(b"restore") && line.len() > LONG;
            let same = |one: &u8, next: &u8| whole || one.is_ascii_digit() == next.is_ascii_digit();
            let words = line.chunk_by(same).map(<[u8]>::to_vec);
            words.collect::<Vec<_>>()
        })
        .collect()
}

/// The first word, from 1, in which two lines differ, with what each has there.
pub fn first_word(one: &str, other: &str) -> String {
    let mut others = other.split(' ');
    for (place, word) in one.split(' ').enumerate() {
        let beside = others.next().unwrap_or("nothing");
        if word != beside {
            return format!("word {}: {word} against {beside}", place + 1);
        }
    }
    format!("nothing against {}", others.next().unwrap_or("nothing"))
}

/// The number of the first line, from 0, in which two outputs differ.
pub fn first_difference(one: &[u8], other: &[u8]) -> Option<usize> {
    if one == other {
        return None;
    }
    let ones = one.split(|byte| *byte == b'\n');
    let mut others = other.split(|byte| *byte == b'\n');
    let equal = ones.take_while(|line| others.next() == Some(*line)).count();
    Some(equal)
}
