//! Calls with prunes between them, to be set against the same calls without (`left_out`). Most are steered: every call stays apart, or one
//! hypothesis alone is failed.

use reference::{ENTRIES, LAST_TIME};

use crate::apart::{Failed, HYPOTHESES, Hypothesis, Made, Omitted, changes};
use crate::left_out::{MARK, pair};
use crate::profiles::Profile;
use crate::random::Random;
use crate::scripts::{Names, Writer, line};

/// How often a call is drawn anew before its place stays empty; and one that is to fail, which few do.
const TRIES: usize = 10;
const SEARCHES: usize = 30;

/// The calls that come more often here: marks and stamps may fall on what was taken.
const OFTEN: [&str; 4] = ["settled", "closes", "record_terminal", "stamp_terminal"];

/// Tables that a profile fills so far are about full.
const FULL: u64 = 38;

/// A pair: calls as in any script, then a stretch of them with prunes.
pub fn script(random: &mut Random, profile: &'static Profile, names: &Names) -> Vec<u8> {
    let mut writer = Writer::of(random, profile, names);
    writer.start();
    writer.fill();
    writer.begin_anew();
    writer.mix();
    if writer.random.percent(60) {
        writer.leave();
    }
    writer.push(MARK);
    let full = profile.fill.0 >= FULL;
    let mut stretch = Stretch {
        aim: Aim::of(writer.random, full),
        writer,
        omitted: Omitted::default(),
    };
    let last = stretch.write();
    pair(&stretch.writer.text, last)
}

/// What the calls may fail.
enum Aim {
    Nothing,
    Alone(Hypothesis),
    Anything,
}

impl Aim {
    fn of(random: &mut Random, full: bool) -> Self {
        let (any, _) = random.pick(&HYPOTHESES);
        match random.below(10) {
            0..3 => Self::Nothing,
            3..7 if full => Self::Alone(Hypothesis::Room),
            3..9 => Self::Alone(any),
            _ => Self::Anything,
        }
    }

    fn may(&self, fail: Hypothesis) -> bool {
        match self {
            Self::Nothing => false,
            Self::Alone(one) => *one == fail,
            Self::Anything => true,
        }
    }

    /// The calls by which one hypothesis is failed, prunes apart.
    fn calls(&self) -> &'static [&'static str] {
        let Self::Alone(one) = self else { return &[] };
        match one {
            Hypothesis::Named => &[
                "register_committed",
                "record_absence",
                "certify",
                "record_abandonment",
                "fated",
                "release_resolved",
                "forget",
                "bundle",
            ],
            Hypothesis::Clear => &["register_committed", "record_abandonment", "bundle"],
            Hypothesis::Kept => &["record_abandonment", "record_terminal", "bundle"],
            Hypothesis::Unheld => &["record_terminal", "bundle"],
            Hypothesis::Room => &["register_committed", "record_terminal", "closes", "bundle"],
            Hypothesis::Steady => &[],
        }
    }
}

/// The writer runs the calls without the prunes, so it steers by the bare ledger.
struct Stretch<'a> {
    writer: Writer<'a>,
    omitted: Omitted,
    aim: Aim,
}

type Weights = [(&'static str, u64)];

impl Stretch<'_> {
    /// Write the calls; the clock of the last prune is handed back.
    fn write(&mut self) -> u64 {
        let mut failing = self.weights();
        let by = self.aim.calls();
        failing.retain(|(name, _)| by.contains(name));
        let weights = self.weights();
        for _ in 0..self.writer.random.between(1, 4) {
            self.calls(&weights, 2);
            self.prune();
            self.calls(&weights, 3);
            if self.writer.random.percent(60) {
                let _ = (0..SEARCHES).any(|_| self.call(&failing, true));
            }
            self.calls(&weights, 3);
        }
        self.clock()
    }

    fn weights(&self) -> Vec<(&'static str, u64)> {
        let mut weights = self.writer.weights();
        weights.retain(|(name, _)| changes(name) && *name != "prune");
        for (name, weight) in &mut weights {
            *weight *= if OFTEN.contains(name) { 3 } else { 1 };
        }
        weights
    }

    fn calls(&mut self, weights: &Weights, most: u64) {
        for _ in 0..self.writer.random.between(0, most) {
            let _ = (0..TRIES).any(|_| self.call(weights, false));
        }
    }

    /// Draw a call, and write it if it fails only what may fail, and something if it has to.
    fn call(&mut self, weights: &Weights, has_to: bool) -> bool {
        let writer = &mut self.writer;
        let Some(name) = writer.weighted(weights) else {
            return false;
        };
        let breach = writer.random.percent(writer.profile.breach);
        let Some((call, numbers)) = writer.draw(name, breach, None) else {
            return false;
        };
        let lent = (call.item > 0).then(|| writer.lent(name, &numbers));
        let lent = lent.flatten();
        let made = Made {
            call,
            numbers: &numbers,
            lent: lent.unwrap_or(0) as usize,
        };
        let failed = self.omitted.failed(&made, &writer.runner.book);
        let allowed = HYPOTHESES
            .iter()
            .all(|(one, _)| !failed[*one as usize] || self.aim.may(*one));
        if !allowed || (has_to && failed == Failed::default()) {
            return false;
        }
        let writer = &mut self.writer;
        writer.push(line(name, &numbers, lent).as_bytes());
        if matches!(name, "settled" | "returned") && writer.random.percent(60) {
            writer.mark_all(name, numbers[1]);
        }
        true
    }

    /// A prune that is written and not run: it is left out of the ledger that steers.
    fn prune(&mut self) {
        let now = if self.writer.random.percent(8) {
            self.writer.random.pick(&[LAST_TIME + 1, u64::MAX])
        } else {
            self.clock()
        };
        let book = &self.writer.runner.book;
        let needed = self.omitted.needed(now, book).unwrap_or(0);
        let lent = match self.writer.random.below(10) {
            0 => needed,
            1 => needed.saturating_sub(1),
            _ => 3 * ENTRIES,
        };
        let prune = line("prune", &[now], Some(lent as u64)) + "\n";
        self.writer.text.extend(prune.into_bytes());
        self.omitted.leave_out(now, lent, &self.writer.runner.book);
    }

    /// A clock not before the last one's, or before it where that may fail: the first of some that takes something more.
    fn clock(&mut self) -> u64 {
        let random = &mut self.writer.random;
        let before = self.aim.may(Hypothesis::Steady) && random.percent(50);
        let last = self.omitted.clock;
        let pools = &self.writer.pools;
        let mut clocks = [&pools.near[..], &pools.far, &[last, LAST_TIME]].concat();
        clocks.retain(|now| if before { *now < last } else { *now >= last });
        if clocks.is_empty() {
            return last;
        }
        let mut drawn: Vec<u64> = (0..6).map(|_| random.pick(&clocks)).collect();
        drawn.sort_unstable();
        let entries = random.percent(60);
        let takes = drawn.iter().find(|now| self.takes(**now, entries));
        takes.copied().unwrap_or(drawn[0])
    }

    /// Whether a prune would take other entries than the last one left out, or other departures, unless only entries count.
    fn takes(&self, now: u64, entries: bool) -> bool {
        let mut omitted = Omitted::default();
        omitted.leave_out(now, 3 * ENTRIES, &self.writer.runner.book);
        let falls = omitted.fallen != self.omitted.fallen;
        falls || (!entries && omitted.dropped != self.omitted.dropped)
    }
}
