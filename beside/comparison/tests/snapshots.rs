//! Snapshots, tried on the Rust: what was written is read back whole, a restored ledger goes on as the one that was written, and the reader
//! takes exactly those words that some calls reach.

use std::collections::BTreeMap;

use comparison::bundles::contents;
use comparison::image::{Entry, Image, snapshot_of};
use comparison::scripts::{Names, line, script};
use comparison::shorten::{shorten, thin};
use reference::{Book, Runner};

const SEED: u64 = 80;
const SCRIPTS: u64 = 1500;

/// Each line of the scripts of this seed, with the runner before it.
fn each_line(scripts: u64, mut see: impl FnMut(&Runner, &[u8], u64)) {
    let names = Names::all();
    for index in 0..scripts {
        let text = script(SEED, index, &names).text;
        let mut runner = Runner::default();
        for call in text.split(|byte| *byte == b'\n') {
            see(&runner, call, index);
            if !runner.take(call, &mut Vec::new()) {
                break;
            }
        }
    }
}

/// The status of the call, and the ledger after it.
fn made(name: &str, numbers: &[u64], book: &Book) -> (u64, Book) {
    let mut runner = Runner::default();
    runner.book = book.clone();
    runner.take(line(name, numbers, None).as_bytes(), &mut Vec::new());
    let status = runner.reply.expect("the line is a call").status;
    (status, runner.book)
}

#[test]
fn what_was_written_is_read_back() {
    let mut tried = 0;
    each_line(SCRIPTS / 3, |runner, _, index| {
        let words = snapshot_of(&runner.book);
        let (status, book) = made("restore", &words, &Book::default());
        assert_eq!(status, 0, "script {index}");
        assert_eq!(contents(&book), contents(&runner.book), "script {index}");
        assert_eq!(snapshot_of(&book), words, "script {index}");
        tried += 1;
    });
    assert!(tried > 10 * SCRIPTS, "{tried} tried");
}

/// The answers of a script, and of the same with the ledger put back from its snapshot before every eighth line.
#[test]
fn a_restored_ledger_goes_on_as_the_one_written() {
    let names = Names::all();
    for index in 0..SCRIPTS / 3 {
        let text = script(SEED + 1, index, &names).text;
        let [mut one, mut other] = [Runner::default(), Runner::default()];
        let [mut answers, mut others] = [Vec::new(), Vec::new()];
        for (place, call) in text.split(|byte| *byte == b'\n').enumerate() {
            if place % 8 == 0 {
                let words = snapshot_of(&other.book);
                (_, other.book) = made("restore", &words, &Book::default());
            }
            let goes_on = one.take(call, &mut answers);
            assert_eq!(other.take(call, &mut others), goes_on);
            if !goes_on {
                break;
            }
        }
        assert!(answers == others, "script {index}");
        assert_eq!(contents(&one.book), contents(&other.book), "script {index}");
    }
}

/// The calls that an entry's words ask for, as they stand, whether anything comes of them or not.
fn calls_for(entry: &Entry) -> Vec<(&'static str, Vec<u64>)> {
    let [transaction, at, end, anchor, charge, _] = entry.figures;
    let mut calls = vec![("register_committed", entry.admission())];
    if entry.part == 3 {
        calls.push(("release_resolved", vec![1, 1, transaction, 1, transaction]));
    }
    calls.push(("certify", vec![transaction, entry.certificate]));
    if entry.named != 0 {
        let record = [1, entry.named, 0, transaction, at, end, anchor, charge];
        calls.push(("record_abandonment", record.to_vec()));
    }
    for [shard, key] in &entry.absences {
        calls.push(("record_absence", vec![transaction, *shard, *key]));
    }
    let mark = ["settled", "returned"][usize::from(entry.returned > 0)];
    for record in &entry.marks {
        calls.push((mark, vec![*record, transaction]));
    }
    calls
}

/// The calls by which a shard comes to a count of 1: its record rebuilds an entry, which is forgotten again.
fn calls_counted([shard, _]: &[u64; 2]) -> Vec<(&'static str, Vec<u64>)> {
    let record = vec![1, *shard, 0, 1, 0, 0, 0, 0];
    vec![("record_abandonment", record), ("forget", vec![1])]
}

/// Whether calls from a making reach a ledger of which these words are written. A shard with a count of 1 comes to any higher one by as many
/// records as it takes, and to no lower one; more than counts come of none of them, since an entry that a record would rebuild can as well be
/// admitted, certified and named.
fn reached(image: &Image) -> bool {
    let (status, mut book) = made("new", &image.head, &Book::default());
    let counts = image.counts.iter().flat_map(calls_counted);
    let entries = image.entries.iter().flat_map(calls_for);
    let departures = image.departures.iter();
    let terminals = departures.map(|departure| ("record_terminal", departure.to_vec()));
    for (name, numbers) in counts.chain(entries).chain(terminals) {
        (_, book) = made(name, &numbers, &book);
    }
    let mut come_to = Image::of(&snapshot_of(&book)).expect("as it is written");
    for (one, [_, count]) in come_to.counts.iter_mut().zip(&image.counts) {
        one[1] = one[1].max(*count);
    }
    status == 0 && come_to.words() == image.words()
}

fn expected(words: &[u64]) -> u64 {
    match Image::of(words) {
        None => 12,
        Some(image) if reached(&image) => 0,
        Some(_) => 13,
    }
}

/// A snapshot with some of everything, the first that the instances restore: each word by itself made another, left out, put before another,
/// and the words cut off there.
#[test]
fn every_word_in_turn_is_taken_or_refused_as_calls_reach() {
    let text = include_str!("../../instances/snapshot.calls");
    let call = text.lines().find(|line| line.starts_with("restore "));
    let numbers = call.expect("one is restored").split(' ').skip(1);
    let words: Vec<u64> = numbers
        .map(|word| word.parse().expect("a number"))
        .collect();
    let mut came = BTreeMap::new();
    for (at, &word) in words.iter().enumerate() {
        let next = words[(at + 1) % words.len()];
        let [above, below] = [word.wrapping_add(1), word.wrapping_sub(1)];
        let others = [above, below, next, 0, 1, 2, 1 << 33, 1 << 48, u64::MAX];
        let mut changed: Vec<Vec<u64>> = vec![words[..at].to_vec()];
        changed.push([&words[..at], &words[at + 1..]].concat());
        for other in others {
            changed.push([&words[..at], &[other], &words[at + 1..]].concat());
            changed.push([&words[..at], &[other], &words[at..]].concat());
        }
        for changed in changed {
            let (status, _) = made("restore", &changed, &Book::default());
            assert_eq!(status, expected(&changed), "word {at}: {changed:?}");
            *came.entry(status).or_insert(0) += 1;
        }
    }
    assert!(
        came.len() == 3 && came.values().all(|many| *many > 300),
        "{came:?}"
    );
}

#[test]
fn the_reader_takes_exactly_what_calls_reach() {
    let (mut taken, mut refused) = (0, 0);
    each_line(SCRIPTS, |runner, call, index| {
        if !call.starts_with(b"restore") {
            return;
        }
        let mut runner_after = Runner::default();
        runner_after.book = runner.book.clone();
        if !runner_after.take(call, &mut Vec::new()) {
            return;
        }
        let words = &runner_after.numbers;
        let (status, book) = made("restore", words, &runner.book);
        let expected = expected(words);
        let shown = String::from_utf8_lossy(call);
        assert_eq!(status, expected, "script {index}: {shown}");
        if status == 0 {
            assert_eq!(snapshot_of(&book), *words, "script {index}: {shown}");
            taken += 1;
        } else {
            let none = contents(&Book::default());
            assert_eq!(contents(&book), none, "script {index}: {shown}");
            refused += 1;
        }
    });
    assert!(
        taken > 500 && refused > 500,
        "{taken} taken, {refused} refused"
    );
}

/// What stood before a restore goes; of the snapshot one entry and one count matter, and no departure.
#[test]
fn a_script_with_a_restore_is_shortened() {
    let entries = "0 0 0 8 1 1 1 1 0 0 0 0 0 0 0 0 0 0 9 1000 1500 10 77 0 0 2 5 0 0 0";
    let script = format!(
        "new 4 100 50 200\nregister_committed 0 0 0 7 1 1 1 1 0\nforget 7\nrestore 4 100 50 200 3 5 8 6 7 7 9 2 1 15 15 {entries} 5 11 0 0\nlocal\nrebuilt\nexecuted 9\n"
    );
    let yes = |text: &[u8]| {
        let mut answers = Vec::new();
        reference::run(text, &mut answers);
        let said = String::from_utf8_lossy(&answers);
        let rebuilt: Vec<&str> = said.lines().rev().take(2).collect();
        let counted = rebuilt.get(1).and_then(|line| line.strip_prefix("0 "));
        let counted: u64 = counted.and_then(|sum| sum.parse().ok()).unwrap_or(0);
        rebuilt[0] == "0 1" && counted >= 9 && text.ends_with(b"rebuilt\nexecuted 9\n")
    };
    let short = thin(&shorten(script.as_bytes(), yes), yes);
    let one = "0 0 0 9 1000 1500 10 77 0 0 2 5 0 0 0";
    assert_eq!(
        String::from_utf8_lossy(&short),
        format!("restore 4 100 50 200 1 7 9 1 0 15 {one}\nrebuilt\nexecuted 9\n")
    );
}
