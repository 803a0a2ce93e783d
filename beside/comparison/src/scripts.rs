//! Puts lines together to a script, running each on the Rust to know what stands.

use reference::{
    CALLS, Call, FILLER, Given, LONGEST_SPAN, MOST_LENT, MOST_NUMBERS, Reply, Runner, call_named,
};

use crate::breaches::spoil;
use crate::image;
use crate::items::{joined, written};
use crate::lines::{Maker, shuffle};
use crate::malformed;
use crate::pools::Pools;
use crate::profiles::{self, Profile};
use crate::random::Random;
use crate::series;
use crate::stretches;
use crate::tree::Tree;

/// Lent to a call that is refused whatever its list.
const SOME_WORDS: u64 = 4;

/// Shares in percent: scripts with restores, whatever their profile; of these those that begin with one; and restores refused after which the
/// ledger is put back.
const RESTORING: u64 = 20;
const BEGINNING: u64 = 20;
const PUT_BACK: u64 = 85;

/// The names a script may use; `repeat` is one of them.
pub struct Names(Vec<String>);

impl Names {
    pub fn all() -> Self {
        let names = CALLS.iter().map(|call| call.name.to_string());
        Self(names.chain(["repeat".to_string()]).collect())
    }

    /// From a list with commas; `Err` names what is no call. `new` is always among them.
    pub fn listed(list: &str) -> Result<Self, String> {
        let mut names = vec!["new".to_string()];
        for name in list.split(',').filter(|name| !name.is_empty()) {
            if name != "repeat" && call_named(name.as_bytes()).is_none() {
                return Err(name.to_string());
            }
            names.push(name.to_string());
        }
        Ok(Self(names))
    }

    pub fn has(&self, name: &str) -> bool {
        self.0.iter().any(|known| known == name)
    }

    pub fn calls(&self) -> Vec<&'static Call> {
        CALLS.iter().filter(|call| self.has(call.name)).collect()
    }

    /// Whether a script, given as text, keeps to these names.
    pub fn cover(&self, script: &[u8]) -> bool {
        script.split(|byte| *byte == b'\n').all(|line| {
            let name = line
                .split(|byte| !byte.is_ascii_lowercase() && *byte != b'_')
                .next();
            let name = name.unwrap_or_default();
            call_named(name).is_none_or(|call| self.has(call.name))
                && (name != b"repeat" || self.has("repeat"))
        })
    }
}

pub struct Script {
    pub text: Vec<u8>,
    /// To be run by itself: it does not start with `new` or `restore`, or it may stop early.
    pub apart: bool,
}

/// Script `index` under `seed`.
pub fn script(seed: u64, index: u64, names: &Names) -> Script {
    let mut random = Random::of(seed, index);
    let profile = profiles::pick(&mut random);
    let mut writer = Writer::of(&mut random, profile, names);
    let made = !writer.random.percent(1);
    if made {
        writer.start();
    }
    writer.fill();
    writer.begin_anew();
    writer.mix();
    writer.finish();
    let Writer { text, pools, .. } = writer;
    if random.percent(2) {
        return Script {
            text: malformed::spoil(&mut random, text, names),
            apart: true,
        };
    }
    let told = names.has("prune") && names.has("dump");
    if !made || !told {
        return Script { text, apart: !made };
    }
    let text = match random.below(100) {
        0..10 => series::pair(&text, &rising(&mut random, &pools)),
        10..20 => stretches::script(&mut random, profile, names),
        _ => text,
    };
    Script { text, apart: false }
}

/// Clocks about which entries fall.
fn rising(random: &mut Random, pools: &Pools) -> Vec<u64> {
    let mut clocks: Vec<u64> = (0..random.between(2, 5))
        .map(|_| random.pick(&pools.far))
        .collect();
    clocks.sort_unstable();
    clocks
}

/// Writes a script line by line.
pub struct Writer<'a> {
    pub random: &'a mut Random,
    pub profile: &'static Profile,
    pub names: &'a Names,
    pub pools: Pools,
    pub runner: Runner,
    pub text: Vec<u8>,
    /// Whether the script restores, which makes it long, and what it may restore: the snapshots that it took.
    restores: bool,
    kept: Vec<Vec<u64>>,
}

impl<'a> Writer<'a> {
    pub fn of(random: &'a mut Random, profile: &'static Profile, names: &'a Names) -> Self {
        let pools = Pools::of(random, profile);
        let favoured = profile.favour.contains(&"restore");
        let restores = names.has("restore") && (favoured || random.percent(RESTORING));
        Self {
            random,
            profile,
            names,
            pools,
            runner: Runner::default(),
            text: Vec::new(),
            restores,
            kept: Vec::new(),
        }
    }

    /// A making that holds, at times after one that is refused.
    pub fn start(&mut self) {
        let [v, c, l] = self.pools.spans;
        let good = [self.pools.local, v, c, l];
        if self.random.percent(4) {
            let mut bad = good;
            let place = self.random.below(4) as usize;
            bad[place] = self.random.pick(&[0, LONGEST_SPAN + 1, 1 << 33, u64::MAX]);
            self.line("new", &bad, None);
        }
        if self.runner.reply.is_none() || self.random.percent(70) {
            self.line("new", &good, None);
        }
    }

    pub fn fill(&mut self) {
        let (count, name) = self.profile.fill;
        let count = count - self.random.below(count / 4 + 1);
        for turn in 0..if self.names.has(name) { count } else { 0 } {
            self.call(name, false, Some(turn as usize));
        }
    }

    /// Let the script begin here: the ledger so far stands in place of a fresh one.
    pub fn begin_anew(&mut self) {
        if self.restores && self.random.percent(BEGINNING) {
            self.text.clear();
            self.line("restore", &image::snapshot_of(&self.runner.book), None);
        }
    }

    pub fn mix(&mut self) {
        let weights = self.weights();
        for _ in 0..self
            .random
            .between(self.profile.lines.0, self.profile.lines.1)
        {
            let drawn = self.weighted(&weights);
            self.asides();
            if self.random.percent(self.profile.silence) {
                self.silence();
            }
            let breach = self.random.percent(self.profile.breach);
            self.call(drawn.unwrap_or("new"), breach, None);
        }
    }

    /// A name, each as often as it weighs.
    pub fn weighted(&mut self, weights: &[(&'static str, u64)]) -> Option<&'static str> {
        let total: u64 = weights.iter().map(|(_, weight)| weight).sum();
        let mut left = self.random.below(total.max(1));
        let drawn = weights.iter().find(|(_, weight)| {
            let here = left < *weight;
            left = left.saturating_sub(*weight);
            here
        });
        drawn.map(|(name, _)| *name)
    }

    pub fn weights(&self) -> Vec<(&'static str, u64)> {
        let favour = |name: &str| {
            let times = self
                .profile
                .favour
                .iter()
                .filter(|favoured| **favoured == name)
                .count();
            1 + 5 * times as u64
        };
        Maker::DRAWS
            .iter()
            .filter(|(name, _, _)| self.names.has(name) && (self.restores || *name != "restore"))
            .map(|(name, weight, _)| (*name, weight * favour(name)))
            .collect()
    }

    /// Now and then a comment, an empty line or a `repeat`.
    fn asides(&mut self) {
        match self.random.below(150) {
            0 => self.push(b"# aside"),
            1 => self.push(b""),
            2 if self.names.has("repeat") => {
                let times = self.random.between(1, 3);
                self.push(format!("repeat {times}").as_bytes());
            }
            _ => {}
        }
    }

    /// A rising series of prunes at times, then everything that is held.
    fn finish(&mut self) {
        if self.names.has("prune") && self.random.percent(25) {
            for clock in rising(self.random, &self.pools) {
                self.list_call("prune", &[clock]);
            }
        }
        for name in ["dump", "rebuilt"] {
            if self.names.has(name) {
                self.line(name, &[], None);
            }
        }
    }

    fn call(&mut self, name: &'static str, breach: bool, turn: Option<usize>) {
        let Some((call, numbers)) = self.draw(name, breach, turn) else {
            return;
        };
        let before = (name == "restore").then(|| image::snapshot_of(&self.runner.book));
        if call.item > 0 {
            self.list_call(name, &numbers);
        } else {
            // The grammar lets any call be lent a list.
            let lent = self.random.percent(1).then_some(3);
            self.line(name, &numbers, lent);
        }
        if let Some(words) = before {
            self.put_back(&words);
        }
        if name == "counterparts_by_tree" && self.random.percent(60) {
            self.by_depth(&numbers);
        }
        if matches!(name, "settled" | "returned") && self.random.percent(40) {
            self.mark_all(name, numbers[1]);
        }
        if name == "bundle" && self.random.percent(15) {
            self.reordered(&numbers);
        }
    }

    /// After a restore that was refused: mostly put the ledger back, given as a snapshot.
    fn put_back(&mut self, words: &[u64]) {
        let last = self.runner.reply.as_ref();
        let refused = last.is_some_and(|reply| reply.status != 0);
        if refused && self.random.percent(PUT_BACK) {
            self.line("restore", words, None);
        }
    }

    /// Behind counterparts by a uniform tree those by its depth.
    fn by_depth(&mut self, numbers: &[u64]) {
        let tree = Tree::read(&numbers[1..]).ok();
        let depth = tree.and_then(|tree| tree.uniform_depth());
        if let (Some(depth), true) = (depth, self.names.has("counterparts")) {
            self.list_call("counterparts", &[numbers[0], u64::from(depth)]);
        }
    }

    /// The same items in another order.
    fn reordered(&mut self, numbers: &[u64]) {
        let mut items = written(numbers);
        shuffle(self.random, &mut items);
        self.line("bundle", &joined(&items), None);
    }

    /// The call of that name and numbers for it, spoilt where a breach is due.
    pub fn draw(
        &mut self,
        name: &str,
        breach: bool,
        turn: Option<usize>,
    ) -> Option<(&'static Call, Vec<u64>)> {
        let (_, _, draw) = Maker::DRAWS
            .into_iter()
            .find(|(known, _, _)| *known == name)?;
        let tally = self.runner.book.tally();
        let call = call_named(name.as_bytes()).expect("every draw has a call");
        let any_count = call.numbers.any_count();
        let over = breach && any_count && self.random.percent(40);
        let mut maker = Maker {
            random: self.random,
            pools: &self.pools,
            profile: self.profile,
            book: &self.runner.book,
            tally: &tally,
            kept: &self.kept,
            turn,
            over,
        };
        let mut numbers = draw(&mut maker);
        if breach && !over {
            spoil(self.random, &mut numbers, any_count);
        }
        // A line without what stands ahead of its words, or with too many of them, would end the script.
        let fitting = numbers.len().clamp(call.numbers.least(), MOST_NUMBERS);
        numbers.resize(fitting, 0);
        Some((call, numbers))
    }

    fn silence(&mut self) {
        if self.leave() {
            let now = self.random.pick(&self.pools.near[1..]);
            self.list_call("prune", &[now]);
        }
    }

    /// Certify an entry and let every owner of a remote route leave, about the clock of a prune. False if nothing can be certified.
    pub fn leave(&mut self) -> bool {
        let owed = self.runner.book.tally().owed;
        let known = ["certify", "record_terminal", "prune"]
            .iter()
            .all(|name| self.names.has(name));
        let (true, Some(last)) = (known, owed.len().checked_sub(1)) else {
            return false;
        };
        let place = self.random.between(0, last as u64) as usize;
        let transaction = owed.into_keys().nth(place).unwrap_or(0);
        let near = self.pools.near.clone();
        let code = self.random.between(1, 2);
        self.line("certify", &[transaction, code], None);
        for owner in self.pools.owners.clone().into_iter().take(6) {
            let (cut, until) = (self.random.pick(&near[1..]), self.random.pick(&near[..2]));
            self.line("record_terminal", &[owner, cut, 1, until], None);
        }
        true
    }

    /// Mark every record of a transaction, since only then can it close.
    pub fn mark_all(&mut self, name: &'static str, transaction: u64) {
        let both = self.names.has("settled") && self.names.has("returned");
        for (record, issuer) in self.runner.book.tally().pairs {
            let other = both && self.random.percent(20);
            let name = if other {
                self.random.pick(&["settled", "returned"])
            } else {
                name
            };
            if issuer == transaction {
                self.line(name, &[record, issuer], None);
            }
        }
    }

    fn list_call(&mut self, name: &str, numbers: &[u64]) {
        let lent = self.lent(name, numbers);
        self.line(name, numbers, lent);
        let wrote = |reply: &&Reply| name == "snapshot" && reply.status == 0;
        if let Some(reply) = self.runner.reply.as_ref().filter(wrote) {
            self.kept
                .push(reply.lent[..reply.said[0] as usize].to_vec());
        }
    }

    /// A list one word short, exact, or longer; now and then none or the longest.
    pub fn lent(&mut self, name: &str, numbers: &[u64]) -> Option<u64> {
        let needed = self.needed(name, numbers);
        let lent = match self.random.below(20) {
            0..4 => needed.saturating_sub(1),
            4..11 => needed,
            11 => self.random.below(needed + 1),
            12..18 => needed + self.random.between(1, 6),
            18 => MOST_LENT,
            _ => 0,
        };
        let bare = lent == 0 && self.random.percent(50);
        (!bare).then_some(lent.min(MOST_LENT))
    }

    /// The words that the call would write now, tried on a copy.
    pub fn needed(&self, name: &str, numbers: &[u64]) -> u64 {
        let call = call_named(name.as_bytes()).expect("a call of the table");
        let mut lent = vec![FILLER; MOST_LENT as usize];
        let mut said = Vec::new();
        let given = Given {
            numbers,
            lent: &mut lent,
            said: &mut said,
        };
        let refused = call.make(&mut self.runner.book.clone(), given).is_err();
        if refused {
            SOME_WORDS
        } else {
            said[0] * call.item as u64
        }
    }

    fn line(&mut self, name: &str, numbers: &[u64], lent: Option<u64>) {
        self.push(line(name, numbers, lent).as_bytes());
    }

    /// Every line goes to the text and, so that the next is steered by it, to the Rust.
    pub fn push(&mut self, line: &[u8]) {
        self.text.extend_from_slice(line);
        self.text.push(b'\n');
        let mut answers = Vec::new();
        self.runner.take(line, &mut answers);
    }
}

pub fn line(name: &str, numbers: &[u64], lent: Option<u64>) -> String {
    let mut line = name.to_string();
    for number in numbers {
        line.push(' ');
        line.push_str(&number.to_string());
    }
    if let Some(lent) = lent {
        line.push_str(&format!(" lent {lent}"));
    }
    line
}
