//! Makes a ledger, reads one that was stored, prunes it, and prints what each call gave.

use owed_ledger::{Ledger, Refusal, Spans};

/// A ledger with one entry, which a record of shard 5 rebuilt, and one departure, of shard 6.
#[rustfmt::skip]
const STORED: [u64; 30] = [
    4, 100, 50, 200, 1, 5, 1, 1, 1, 16,        // the numbers in front, shard 5's count among them, the entry's length
    1, 0, 0, 9, 1000, 1100, 10, 7, 0, 1 << 62, // the entry: its admission
    0, 2, 5, 0, 0, 0,                          // and its history
    6, 12, 1, 30,                              // the departure
];

fn main() -> Result<(), Refusal> {
    let made = Ledger::new(
        4,
        Spans {
            validity: 100,
            core: 50,
            leg: 200,
        },
    )?;
    println!("make: {} bytes", made.as_bytes().len());

    let stored: Vec<u8> = STORED.iter().flat_map(|word| word.to_le_bytes()).collect();
    let mut ledger = Ledger::from_snapshot(&stored)?;
    println!("read: the same bytes: {}", ledger.as_bytes() == stored);

    let pruned = ledger.prune(0)?;
    println!(
        "prune: {} written, {} fallen",
        pruned.written, pruned.fallen
    );
    for report in &pruned.reports {
        println!(
            "report: transaction {}, covered {}, charge {}",
            report.transaction, report.covered, report.charge
        );
    }
    println!(
        "after it: {} bytes, {:?}",
        ledger.as_bytes().len(),
        ledger.words()
    );

    if let Err(refusal) = Ledger::from_snapshot(&stored[..stored.len() - 8]) {
        println!("read of a word less: {}, {refusal}", refusal.number());
    }
    Ok(())
}
