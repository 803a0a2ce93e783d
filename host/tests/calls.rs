//! Each function against the ledger in plain Rust: the number, every byte of both slices and those around them, in every order of refusals,
//! with slices one byte short, exact and longer, at every address.

mod support;

use owed_ledger::{LONGEST_REPORTS, LONGEST_SNAPSHOT, Refusal, ffi, slices};
use std::ptr::null_mut;
use support::guarded::Guarded;
use support::plain::{Plain, bytes_of, is_shard, is_span, is_time, report_bytes};
use support::random::Random;

fn number(result: Result<(), Refusal>) -> u64 {
    result.err().map_or(0, Refusal::number)
}

/// A byte short, exact, a byte more, a word more and half a word more than needed.
fn lengths(needed: usize) -> Vec<usize> {
    let mut all = vec![needed, needed + 1, needed + 8, needed + 12];
    all.extend(needed.checked_sub(1));
    all
}

fn check_make(local: u64, v: u64, c: u64, l: u64, out_len: usize, off: usize) {
    let bytes = Plain::empty(local, v, c, l).bytes();
    let spans = [v, c, l].iter().all(|s| is_span(*s));
    let want = if !is_shard(local) {
        1
    } else if !spans {
        2
    } else if out_len < bytes.len() {
        9
    } else {
        0
    };
    let mut out = Guarded::new(out_len, off);
    assert_eq!(
        number(slices::make(local, v, c, l, out.slice())),
        want,
        "make {local} {v} {c} {l}, {out_len} bytes"
    );
    out.expect(if want == 0 { &bytes } else { &[] });
}

fn check_read(snapshot: &[u8], out_len: usize, off: usize) -> u64 {
    let want = match Plain::read_bytes(snapshot) {
        Err(refusal) => refusal,
        Ok(ledger) => {
            assert_eq!(ledger.bytes(), snapshot, "what is read is written again");
            if out_len < snapshot.len() { 9 } else { 0 }
        }
    };
    let mut out = Guarded::new(out_len, off);
    assert_eq!(
        number(slices::read(snapshot, out.slice())),
        want,
        "read of {snapshot:?}, {out_len} bytes"
    );
    out.expect(if want == 0 { snapshot } else { &[] });
    want
}

fn check_prune(snapshot: &[u8], now: u64, out_len: usize, reports_len: usize, off: usize) -> u64 {
    let mut written = (vec![], vec![]);
    let want = match Plain::read_bytes(snapshot) {
        Err(refusal) => refusal,
        Ok(_) if !is_time(now) => 3,
        Ok(mut ledger) => {
            let reports = report_bytes(&ledger.prune(now));
            let after = ledger.bytes();
            if out_len < after.len() || reports_len < reports.len() {
                9
            } else {
                written = (after, reports);
                0
            }
        }
    };
    let mut out = Guarded::new(out_len, off);
    let mut reports = Guarded::new(reports_len, off + 3);
    let gave = number(slices::prune(snapshot, now, out.slice(), reports.slice()));
    assert_eq!(
        gave, want,
        "prune of {snapshot:?} at {now}, {out_len} and {reports_len} bytes"
    );
    out.expect(&written.0);
    reports.expect(&written.1);
    want
}

/// What a prune of the ledger needs for its two slices.
fn needed(ledger: &Plain, now: u64) -> (usize, usize) {
    let mut after = ledger.clone();
    let pruned = after.prune(now);
    (after.bytes().len(), report_bytes(&pruned).len())
}

#[test]
fn making() {
    let locals = [0, 1, 4, (1 << 33) - 1, 1 << 33, u64::MAX];
    let spans = [0, 1, 100, 1 << 40, (1 << 40) + 1, u64::MAX];
    for local in locals {
        for v in spans {
            for (c, l) in [(1, 1), (0, 1), (1, 0), (1 << 40, 1 << 40), (1 << 41, 5)] {
                for out_len in lengths(56).into_iter().chain([0, 8, LONGEST_SNAPSHOT]) {
                    check_make(local, v, c, l, out_len, (local % 8) as usize);
                }
            }
        }
    }
}

#[test]
fn good_snapshots() {
    let mut random = Random::new(1);
    for round in 0..400 {
        let ledger = if round == 0 {
            Random::full()
        } else {
            random.ledger()
        };
        let bytes = ledger.bytes();
        for out_len in lengths(bytes.len())
            .into_iter()
            .chain([0, LONGEST_SNAPSHOT + 5])
        {
            let gave = check_read(&bytes, out_len, round % 16);
            assert!(
                [0, 9].contains(&gave),
                "a ledger that calls reach is accepted"
            );
        }
        for now in [
            random.time(),
            random.time(),
            0,
            (1 << 48) - 1,
            1 << 48,
            u64::MAX,
        ] {
            let (after, reports) = needed(&ledger, now);
            for out_len in lengths(after) {
                check_prune(&bytes, now, out_len, reports + 4, round % 16);
            }
            for reports_len in lengths(reports) {
                check_prune(&bytes, now, after, reports_len, round % 16);
            }
            check_prune(&bytes, now, after - 1, reports - 1, 0);
            check_prune(&bytes, now, LONGEST_SNAPSHOT, LONGEST_REPORTS, 1);
            check_prune(&bytes, now, 0, 0, 0);
        }
    }
}

#[test]
fn damaged_snapshots() {
    let mut random = Random::new(2);
    let mut given = [0usize; 14];
    for round in 0..30_000 {
        let mut ledger = if round % 50 == 0 {
            Random::full()
        } else {
            random.ledger()
        };
        let spoilt = round % 3 != 0;
        if spoilt {
            random.spoil(&mut ledger);
        }
        let mut words = ledger.words();
        if !spoilt || random.one_in(10) {
            random.damage(&mut words);
        }
        let bytes = bytes_of(&words);
        given[check_read(&bytes, bytes.len(), round % 16) as usize] += 1;
        // 12 and 13 come before 3 and 9, and 3 before 9.
        check_prune(
            &bytes,
            random.of(&[0, 1000, 1 << 48]),
            LONGEST_SNAPSHOT,
            LONGEST_REPORTS,
            round % 16,
        );
        check_prune(&bytes, random.of(&[0, 1000, 1 << 48]), 0, 0, 0);
        check_read(&bytes, 0, 0);
    }
    println!(
        "damaged: {} accepted, {} by 12, {} by 13",
        given[0], given[12], given[13]
    );
    assert!(given[0] > 4_000 && given[12] > 4_000 && given[13] > 4_000);
}

#[test]
fn bytes_that_are_no_whole_words() {
    let bytes = Random::full().bytes();
    let mut random = Random::new(3);
    for _ in 0..200 {
        let small = random.ledger().bytes();
        for part in [&bytes, &small] {
            let cut = part.len() - 1 - random.below(7) as usize;
            assert_eq!(check_read(&part[..cut], LONGEST_SNAPSHOT, 0), 12);
            assert_eq!(check_prune(&part[..cut], 1 << 48, 0, 0, 0), 12);
        }
    }
    // More words than any snapshot has, and far more.
    for more in [1, 8, 16, 1 << 20] {
        let long: Vec<u8> = bytes
            .iter()
            .copied()
            .chain(std::iter::repeat_n(0, more))
            .collect();
        assert_eq!(check_read(&long, long.len(), 0), 12);
    }
    // A last length that takes all the words behind it in, so that only the entry's own sizes say that there are too many.
    let mut words = Random::full().words();
    let lengths = 7 + 2 * words[4] as usize;
    words[lengths] += 1;
    words.push(0);
    assert_eq!(check_read(&bytes_of(&words), LONGEST_SNAPSHOT + 8, 0), 12);
}

#[test]
fn every_refusal_by_itself() {
    let good = Plain::empty(4, 100, 50, 200).bytes();
    let mut buffer = [0; 64];
    assert_eq!(slices::make(0, 0, 1, 1, &mut []), Err(Refusal::NoShard));
    assert_eq!(slices::make(1, 0, 1, 1, &mut []), Err(Refusal::NoSpan));
    assert_eq!(slices::make(1, 1, 1, 1, &mut []), Err(Refusal::TooShort));
    assert_eq!(slices::read(&good[..55], &mut []), Err(Refusal::NoSnapshot));
    assert_eq!(slices::read(&[0; 56], &mut []), Err(Refusal::NeverWritten));
    assert_eq!(slices::read(&good, &mut []), Err(Refusal::TooShort));
    assert_eq!(
        slices::prune(&good[..48], 1 << 48, &mut [], &mut []),
        Err(Refusal::NoSnapshot)
    );
    assert_eq!(
        slices::prune(&[0; 56], 1 << 48, &mut [], &mut []),
        Err(Refusal::NeverWritten)
    );
    assert_eq!(
        slices::prune(&good, 1 << 48, &mut [], &mut []),
        Err(Refusal::NoTime)
    );
    assert_eq!(
        slices::prune(&good, 0, &mut [], &mut buffer),
        Err(Refusal::TooShort)
    );
    assert_eq!(
        slices::prune(&good, 0, &mut buffer, &mut []),
        Err(Refusal::TooShort)
    );
    assert_eq!(buffer, [0; 64]);
}

#[test]
fn no_bytes_at_any_address() {
    let good = Plain::empty(4, 100, 50, 200).bytes();
    for at in [0usize, 1, 8, usize::MAX] {
        let nowhere = null_mut::<u8>().wrapping_add(at);
        let mut out = [0; 56];
        // SAFETY: a slice of no bytes may come with any pointer; the others are slices of their own.
        unsafe {
            assert_eq!(ffi::owed_ledger_make(4, 1, 1, 1, nowhere, 0), 9);
            assert_eq!(ffi::owed_ledger_make(0, 1, 1, 1, nowhere, 0), 1);
            assert_eq!(ffi::owed_ledger_read(nowhere, 0, out.as_mut_ptr(), 56), 12);
            assert_eq!(ffi::owed_ledger_read(nowhere, 0, nowhere, 0), 12);
            assert_eq!(ffi::owed_ledger_read(good.as_ptr(), 56, nowhere, 0), 9);
            assert_eq!(
                ffi::owed_ledger_prune(nowhere, 0, 0, nowhere, 0, nowhere, 0),
                12
            );
            assert_eq!(
                ffi::owed_ledger_prune(good.as_ptr(), 56, 1 << 48, nowhere, 0, nowhere, 0),
                3
            );
            assert_eq!(
                ffi::owed_ledger_prune(good.as_ptr(), 56, 0, nowhere, 0, nowhere, 0),
                9
            );
            assert_eq!(
                ffi::owed_ledger_prune(good.as_ptr(), 56, 0, out.as_mut_ptr(), 56, nowhere, 0),
                9
            );
        }
        assert_eq!(out, [0; 56]);
    }
}
