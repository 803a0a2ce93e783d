//! Every changing call and every reading, on an empty, a half-full and a full ledger.

use crate::cases::{Case, Swap};
use crate::ledgers::{
    Entry, FULL, MAKING, UNKNOWN, abandonment, departures, finalization, line, rebuilt, record,
    settlements,
};

/// A ledger with so many entries, every other one a leg and a core, with eight crossings from local each, so that a full one has a full
/// index; and with departures in proportion, all over routes of the entries.
struct Level {
    count: u64,
    setup: Vec<String>,
}

impl Level {
    fn new(count: u64) -> Self {
        let setup = [Self::entries(count), departures(count / 12, |_| true)].concat();
        Self { count, setup }
    }

    fn entries(count: u64) -> Vec<String> {
        let entry = |n| match n % 2 {
            0 => Entry::leg(n * 10, 8),
            _ => Entry::core(n * 10, 8),
        };
        let taken = (1..=count).map(|n| entry(n).taken_in());
        [MAKING.to_string()].into_iter().chain(taken).collect()
    }

    /// The leg in the middle, or a transaction that is not owed when there is none.
    fn asked(&self) -> u64 {
        self.count * 5
    }

    /// Legs that come and go near the middle: on a full ledger they go first and come back.
    fn moved(&self, n: u64) -> u64 {
        match self.count {
            FULL => self.asked() + 20 * n,
            _ => self.asked() + 5 + 10 * n,
        }
    }

    /// Lines in which something comes, stays and goes, in an order that there is room for.
    fn cycle(&self, comes: &[String], stays: &[String], goes: &[String]) -> Vec<String> {
        match self.count {
            FULL => [goes, comes, stays].concat(),
            _ => [comes, stays, goes].concat(),
        }
    }

    fn repeated(&self, name: &'static str, call: String) -> Case {
        Case::repeated(name, self.count, &self.setup, call)
    }

    /// What comes and goes, with an idle line for each; the row has the cost of all of them together.
    fn coming_and_going(
        &self,
        name: &'static str,
        comes: [&[String]; 2],
        goes: [&[String]; 2],
    ) -> Case {
        let [with, without] = [0, 1].map(|side| self.cycle(comes[side], &[], goes[side]));
        Case::swapped(name, self.count, &self.setup, Swap::of_all(with, without))
    }

    /// Eight calls on a leg that came for them and goes after them; the row has the cost of one of them alone.
    fn visiting(&self, name: &'static str, call: impl Fn(u64, u64) -> String) -> Case {
        let tx = self.moved(0);
        let comes = [Entry::leg(tx, 8).taken_in()];
        let goes = [line("forget", &[tx])];
        let eight = |tx| -> Vec<String> { (0..8).map(|n| call(tx, n)).collect() };
        let [with, without] = [tx, UNKNOWN].map(|tx| self.cycle(&comes, &eight(tx), &goes));
        let swap = Swap {
            calls: 8,
            ..Swap::of_one(with, without, call(UNKNOWN, 0))
        };
        Case::swapped(name, self.count, &self.setup, swap)
    }

    fn admissions(&self) -> Vec<Case> {
        let leg = Entry::leg(self.moved(0), 8);
        let comes = [&[leg.taken_in()][..], &[leg.turned_away()]];
        let moved = self.moved(0);
        let goes = |name| [[line(name, &[moved])], [line(name, &[UNKNOWN])]];
        let (forget, fated) = (goes("forget"), goes("fated"));
        let rebuilt = [[abandonment(5, moved)], [abandonment(0, moved)]];
        let pair = |name, comes, goes: &[[String; 1]; 2]| {
            self.coming_and_going(name, comes, [&goes[0], &goes[1]])
        };
        vec![
            pair("admission and forget", comes, &forget).pictured(),
            pair("admission of a leg and fated", comes, &fated).pictured(),
            pair(
                "abandonment record that rebuilds one, and forget",
                [&rebuilt[0], &rebuilt[1]],
                &forget,
            )
            .pictured(),
        ]
    }

    fn releases(&self) -> Vec<Case> {
        let of = |count: u64| {
            let moved: Vec<u64> = (0..count).map(|n| self.moved(n)).collect();
            let unknown: Vec<u64> = (0..count).map(|n| UNKNOWN + n).collect();
            let legs = moved.iter().map(|tx| Entry::leg(*tx, 8));
            let taken: Vec<String> = legs.clone().map(Entry::taken_in).collect();
            let turned: Vec<String> = legs.map(Entry::turned_away).collect();
            let goes = [[finalization(&moved)], [finalization(&unknown)]];
            (taken, turned, goes)
        };
        let row = |name, count| {
            let (taken, turned, goes) = of(count);
            self.coming_and_going(name, [&taken, &turned], [&goes[0], &goes[1]])
        };
        vec![
            row("admission, and finalization that releases it", 1),
            row("8 admissions, and finalization that releases them", 8).pictured(),
            self.closing(),
        ]
    }

    /// A leg from its admission over its eight settlements to the closes that lists it.
    fn closing(&self) -> Case {
        let closes = format!("closes lent {}", 2 * (self.count + 1));
        let tx = self.moved(0);
        let leg = Entry::leg(tx, 8);
        let closed = [settlements(tx, 8), vec![closes.clone()]].concat();
        let open = [settlements(UNKNOWN, 8), vec![closes]].concat();
        let comes = [leg.taken_in()];
        let turned = [leg.turned_away()];
        let name = "admission of a leg, 8 settled, closes of it";
        self.coming_and_going(name, [&comes, &turned], [&closed, &open])
    }

    /// Calls on an entry in place.
    fn changes(&self) -> Vec<Case> {
        let tx = self.asked();
        vec![
            self.repeated("absence, known", line("record_absence", &[tx, 5, 0]))
                .pictured(),
            self.repeated("certify", line("certify", &[tx, 2]))
                .pictured(),
            self.repeated("settled, marked", line("settled", &[record(tx, 0), tx]))
                .pictured(),
            self.repeated("returned, marked", line("returned", &[record(tx, 0), tx])),
            self.repeated("fated, unknown", line("fated", &[UNKNOWN])),
            self.repeated("finalization, unknown", finalization(&[UNKNOWN])),
            self.repeated("forget, unknown", line("forget", &[UNKNOWN])),
        ]
    }

    /// Calls that need the entry that they name, so there are none on an empty ledger.
    fn owed(&self) -> Vec<Case> {
        let tx = self.asked();
        if tx == 0 {
            return Vec::new();
        }
        let absence = |tx, n| line("record_absence", &[tx, 5, n]);
        let settled = |tx, n| line("settled", &[record(self.moved(0), n), tx]);
        vec![
            self.repeated("admission, owed already", Entry::leg(tx, 8).taken_in()),
            self.repeated("abandonment record, entry owed", abandonment(5, tx)),
            self.visiting("absence, new", absence),
            self.visiting("settled, first mark", settled),
        ]
    }

    fn departing(&self) -> Vec<Case> {
        let known = line("record_terminal", &[24, 14, 1, 30]);
        vec![
            self.repeated("terminal, shard known", known),
            self.first_terminal(),
            self.repeated("stamp, stamped", line("stamp_terminal", &[24, 30])),
            self.repeated("closes, none", format!("closes lent {}", 2 * self.count)),
            self.repeated(
                "prune, all stand",
                format!("prune 31 lent {}", 3 * self.count),
            )
            .pictured(),
        ]
    }

    /// 32 first terminals beside one that is made 32 times. A making before them restores the ledger, and its entries are those that are
    /// soonest there, since they play no part.
    fn first_terminal(&self) -> Case {
        let entries = rebuilt(self.count);
        let firsts = departures(4, |_| false);
        let first = firsts[0].clone();
        let calls = firsts.len() as u32 - 1;
        let again = vec![first.clone(); firsts.len()];
        let setup = [entries.clone(), vec![first.clone()]].concat();
        let with = [entries.clone(), firsts].concat();
        let without = [entries, again].concat();
        let swap = Swap {
            calls,
            ..Swap::of_one(with, without, first)
        };
        Case::swapped("terminal, first of its shard", self.count, &setup, swap)
    }

    fn lists(&self) -> Vec<Case> {
        let tx = self.asked();
        let cores = self.count / 2;
        let lent = |name, words: &[u64], lent: u64| format!("{} lent {lent}", line(name, words));
        vec![
            self.repeated("questions", lent("questions", &[], cores * 35)),
            self.repeated("past deadline", lent("past_deadline", &[1000], cores * 5)),
            self.repeated("issuers of", lent("issuers_of", &[record(tx, 0)], 2))
                .pictured(),
            self.repeated("claimants", lent("claimants", &[tx, record(tx, 0)], 1)),
            self.repeated("counterparts", lent("counterparts", &[tx, 12], 40)),
            self.repeated("unstamped departures", lent("unstamped_departures", &[], 8)),
            self.repeated("reach", lent("reach", &[tx], 8)).pictured(),
        ]
    }

    fn lookups(&self) -> Vec<Case> {
        let tx = self.asked();
        let ask = |name, call, words: &[u64]| self.repeated(name, line(call, words));
        vec![
            ask("open at", "open_at", &[tx, 5, 1, 1000, 2000, 1000]),
            ask("answers", "answers", &[tx, 5, 1, 1000, 2000, 1000, 0]),
            ask("abandonment answers", "abandonment_answers", &[tx]),
            ask("covered", "is_covered", &[tx]).pictured(),
            ask("departed", "departed", &[tx]),
            ask("executed", "executed", &[tx]),
            ask("reaches beyond", "reaches_beyond", &[tx]),
            ask("issued by", "issued_by", &[record(tx, 0), tx]).pictured(),
            ask("local", "local", &[]),
            ask("rebuilt", "rebuilt", &[]),
        ]
    }
}

/// The cases of all three ledgers with each call's beside one another, in the order in which the full ledger has them.
fn by_call(of: impl Fn(&Level) -> Vec<Case>) -> Vec<Case> {
    let names: Vec<&str> = of(&Level::new(FULL)).iter().map(|case| case.name).collect();
    let mut cases: Vec<Case> = [0, FULL / 2, FULL]
        .into_iter()
        .flat_map(|count| of(&Level::new(count)))
        .collect();
    cases.sort_by_key(|case| names.iter().position(|name| *name == case.name));
    cases
        .iter_mut()
        .for_each(|case| case.pictured &= case.entries == FULL);
    cases
}

pub fn changing() -> Vec<Case> {
    let making = Case::repeated("making", 0, &[], MAKING.into());
    let calls = by_call(|level| {
        let groups = [
            level.admissions(),
            level.releases(),
            level.owed(),
            level.changes(),
            level.departing(),
        ];
        groups.into_iter().flatten().collect()
    });
    [making].into_iter().chain(calls).collect()
}

pub fn readings() -> Vec<Case> {
    by_call(|level| level.lists().into_iter().chain(level.lookups()).collect())
}
