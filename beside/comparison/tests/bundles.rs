//! Bundles, tried on the Rust against the calls of their items: those calls made one by one, in lines of their own, are refused, answer and leave
//! what the bundle does, and a bundle that is refused leaves the ledger as it was.

use comparison::bundles::contents;
use comparison::items::{ADMISSION, FINALIZATION, Item, RECORD, joined};
use comparison::random::Random;
use comparison::scripts::{Names, line, script};
use comparison::shorten::{shorten, thin};
use comparison::steps::each_call;
use reference::{Book, Runner};

const SEED: u64 = 79;
const SCRIPTS: u64 = 1500;

/// The items of a bundle's numbers, or the refusal that comes before any item.
fn items(numbers: &[u64]) -> Result<Vec<Item>, u64> {
    let Some((count, rest)) = numbers.split_first() else {
        return Err(11);
    };
    if *count > 64 || (rest.len() as u64) < 2 * count {
        return Err(11);
    }
    let (kinds, rest) = rest.split_at(*count as usize);
    let (lengths, rest) = rest.split_at(*count as usize);
    if kinds.iter().any(|kind| !(1..=5).contains(kind)) {
        return Err(10);
    }
    let mut left = rest;
    let mut items = Vec::new();
    for (kind, length) in kinds.iter().zip(lengths) {
        if *length > left.len() as u64 {
            return Err(11);
        }
        let (words, others) = left.split_at(*length as usize);
        items.push(Item::of(*kind, words.to_vec()));
        left = others;
    }
    if left.is_empty() { Ok(items) } else { Err(11) }
}

fn on(book: &Book) -> Runner {
    let mut runner = Runner::default();
    runner.book = book.clone();
    runner
}

/// What the items' lines say, one after the other: the first refusal, or the three answers and the ledger that they leave.
fn one_by_one(numbers: &[u64], before: &Book) -> Result<(Vec<u64>, Book), u64> {
    let items = items(numbers)?;
    let mut runner = on(before);
    let mut answers = [0; 3];
    let names = [
        "record_terminal",
        "record_abandonment",
        "release_resolved",
        "register_committed",
        "record_absence",
    ];
    for kind in 1..=5 {
        for item in items.iter().filter(|item| item.kind == kind) {
            let call = line(names[kind as usize - 1], &item.words, None);
            // A line of another length is none.
            if !runner.take(call.as_bytes(), &mut Vec::new()) {
                return Err(5);
            }
            let reply = runner.reply.as_ref().expect("the line is a call");
            if reply.status != 0 {
                return Err(reply.status);
            }
            let place = [ADMISSION, RECORD, FINALIZATION]
                .iter()
                .position(|k| *k == kind);
            if let Some(place) = place {
                answers[place] += reply.said[0];
            }
        }
    }
    Ok((answers.to_vec(), runner.book))
}

#[test]
fn a_bundle_does_what_its_items_do_one_by_one() {
    let names = Names::all();
    let (mut accepted, mut refused) = (0, 0);
    for index in 0..SCRIPTS {
        let text = script(SEED, index, &names).text;
        each_call(&text, |step| {
            let reply = step.after.reply.as_ref().expect("the line is a call");
            if !step.once || reply.call.name != "bundle" {
                return;
            }
            let shown = String::from_utf8_lossy(step.line);
            let (said, left) = match one_by_one(&step.after.numbers, &step.before) {
                Ok((answers, book)) => {
                    accepted += 1;
                    ((0, answers), book)
                }
                Err(number) => {
                    refused += 1;
                    ((number, vec![]), step.before)
                }
            };
            assert_eq!(
                (reply.status, &reply.said),
                (said.0, &said.1),
                "script {index}: {shown}"
            );
            assert_eq!(
                contents(&step.after.book),
                contents(&left),
                "script {index}: {shown}"
            );
        });
    }
    assert!(
        accepted > 3 * SCRIPTS / 2 && refused > SCRIPTS / 2,
        "{accepted} accepted, {refused} refused"
    );
}

/// Only within a kind does the order of the words matter.
#[test]
fn kinds_may_be_written_in_any_order() {
    let names = Names::all();
    let mut random = Random::of(SEED, 0);
    let mut tried = 0;
    for index in 0..SCRIPTS / 3 {
        let text = script(SEED, index, &names).text;
        each_call(&text, |step| {
            let bundle = step.line.starts_with(b"bundle");
            let (true, Ok(mut items)) = (bundle, items(&step.after.numbers)) else {
                return;
            };
            let mut kinds = vec![1, 2, 3, 4, 5];
            comparison::lines::shuffle(&mut random, &mut kinds);
            items.sort_by_key(|item| kinds.iter().position(|kind| *kind == item.kind));
            let mut answers = [Vec::new(), Vec::new()];
            let numbers = [step.after.numbers.clone(), joined(&items)];
            let books = [0, 1].map(|side| {
                let mut runner = on(&step.before);
                let call = line("bundle", &numbers[side], None);
                runner.take(call.as_bytes(), &mut answers[side]);
                contents(&runner.book)
            });
            assert_eq!(
                (&books[0], &answers[0]),
                (&books[1], &answers[1]),
                "script {index}"
            );
            tried += 1;
        });
    }
    assert!(tried > SCRIPTS / 3, "{tried} tried");
}

/// A bundle of which one item matters is shortened to that item.
#[test]
fn a_bundle_is_shortened_to_what_matters() {
    let script =
        b"new 4 100 50 200\nbundle 3 5 4 5 3 9 3 1 5 1 0 0 0 9 1000 2000 10 77 0 9 5 1\ndump\n";
    let takes_in = |text: &[u8]| {
        let mut answers = Vec::new();
        reference::run(text, &mut answers);
        String::from_utf8_lossy(&answers).contains("0 1 0 0\n")
    };
    let short = thin(&shorten(script, takes_in), takes_in);
    assert_eq!(
        String::from_utf8_lossy(&short),
        "bundle 1 4 9 0 0 0 9 1000 2000 10 77 0\n"
    );
}
