//! How long a program takes over scripts, and from that what a call or a block costs; what copying a ledger costs.

use std::cell::RefCell;
use std::collections::HashMap;
use std::fs::{self, File};
use std::hint::black_box;
use std::io::{self, Read};
use std::path::{Path, PathBuf};
use std::process::{Command, Stdio};
use std::thread;
use std::time::{Duration, Instant};

use crate::cases::{Case, Swap, Work};
use crate::ledgers::{MAKING, script};

/// Nanoseconds, and how far off they may be.
#[derive(Clone, Copy, Default)]
pub struct Cost {
    pub value: f64,
    pub error: f64,
}

impl Cost {
    /// Whether it is so many times its error.
    pub fn exceeds(self, times: f64) -> bool {
        self.value > times * self.error
    }

    /// Both together, if neither's error has to do with the other's.
    fn plus(self, other: Self) -> Self {
        Self {
            value: self.value + other.value,
            error: self.error.hypot(other.error),
        }
    }

    /// One without the other.
    fn less(self, other: Self) -> Self {
        self.plus(Self {
            value: -other.value,
            ..other
        })
    }

    fn times(self, by: f64) -> Self {
        Self {
            value: self.value * by,
            error: self.error * by,
        }
    }
}

/// What a run should take, how often it is made at least, and at most while a cost is not well above its error; and how a cost is read
/// off the rounds, in each of which both scripts are run.
#[derive(Clone, Copy)]
struct Plan {
    target: Duration,
    least: usize,
    most: usize,
    read: fn(&[[f64; 2]]) -> Cost,
}

const OF_CALLS: Plan = Plan {
    target: Duration::from_millis(25),
    least: 5,
    most: 40,
    read: best,
};
/// Little of a block's time may be in the difference that counts: many short runs come closer to it than a few long ones.
const OF_BLOCKS: Plan = Plan {
    target: Duration::from_millis(6),
    least: 40,
    most: 800,
    read: middle,
};
const MOST_TIMES: u64 = 1 << 26;
/// How many times its error is well above it.
const WELL: f64 = 20.0;

/// The fastest run of either script counts, and how far the third fastest is from it is the error.
fn best(rounds: &[[f64; 2]]) -> Cost {
    let [long, short] = [0, 1].map(|side| sorted(rounds.iter().map(|times| times[side])));
    Cost {
        value: long[0] - short[0],
        error: long[2] - long[0] + short[2] - short[0],
    }
}

/// The median of the rounds' differences: what slows one run of a round mostly slows the other too. Its standard error is a little less
/// than the distance of the quartiles by the root of how many there are.
fn middle(rounds: &[[f64; 2]]) -> Cost {
    let differences = sorted(rounds.iter().map(|[long, short]| long - short));
    let quartile = |n: usize| differences[(differences.len() - 1) * n / 4];
    Cost {
        value: quartile(2),
        error: (quartile(3) - quartile(1)) / (rounds.len() as f64).sqrt(),
    }
}

fn sorted(times: impl Iterator<Item = f64>) -> Vec<f64> {
    let mut times: Vec<f64> = times.collect();
    times.sort_by(f64::total_cmp);
    times
}

/// A program that is timed.
pub struct Program {
    path: PathBuf,
    arguments: &'static [&'static str],
    /// Two scripts, written where the program reads them.
    scripts: [PathBuf; 2],
    /// Costs of repeated calls: idle lines come up in many rows.
    known: RefCell<HashMap<String, Cost>>,
}

impl Program {
    pub fn new(path: &Path, arguments: &'static [&'static str], scratch: &Path) -> Self {
        Self {
            path: path.to_path_buf(),
            arguments,
            scripts: ["longer", "shorter"].map(|name| scratch.join(name)),
            known: RefCell::default(),
        }
    }

    pub fn cost(&self, case: &Case) -> io::Result<Cost> {
        match &case.work {
            Work::Repeated(call) => self.repeated(&case.setup, call),
            Work::Swapped(swap) => self.swapped(&case.setup, swap),
        }
    }

    /// What each of so many items adds to an empty bundle.
    pub fn item(&self, bundle: &Case, items: u32, empty: &Case) -> io::Result<Cost> {
        let added = self.cost(bundle)?.less(self.cost(empty)?);
        Ok(added.times(1.0 / f64::from(items)))
    }

    /// A turn of a `repeat`, less what the programs do before each to fill the lent list anew.
    fn repeated(&self, setup: &str, call: &str) -> io::Result<Cost> {
        let turn = self.turn(setup, call)?;
        match call.split_once(" lent ") {
            Some((_, lent)) => Ok(turn.less(self.filling(lent)?)),
            None => Ok(turn),
        }
    }

    /// A list of so many words filled, by a reading that finds nothing to write: with the list, less the same with none.
    fn filling(&self, lent: &str) -> io::Result<Cost> {
        let (setup, call) = (format!("{MAKING}\n"), "unstamped_departures");
        let with = self.turn(&setup, &format!("{call} lent {lent}"))?;
        Ok(with.less(self.turn(&setup, call)?))
    }

    /// The call made many times by `repeat`, less the call made once.
    fn turn(&self, setup: &str, call: &str) -> io::Result<Cost> {
        let made = |times: u64| format!("{setup}repeat {times}\n{call}\n");
        if let Some(cost) = self.known.borrow().get(&made(1)) {
            return Ok(*cost);
        }
        let times = self.enough(OF_CALLS, made)?;
        let scripts = [&made(times)[..], &made(1)];
        let none = Cost::default();
        let cost = self.difference(OF_CALLS, scripts, (times - 1) as f64, none)?;
        self.known.borrow_mut().insert(made(1), cost);
        Ok(cost)
    }

    fn swapped(&self, setup: &str, swap: &Swap) -> io::Result<Cost> {
        let mut idle = Cost::default();
        for (call, count) in swap.idle_shapes() {
            idle = idle.plus(self.repeated(setup, call)?.times(count));
        }
        let blocks = |lines: &[String], times: u64| {
            setup.to_string() + &script(lines).repeat(times as usize)
        };
        let times = self.enough(OF_BLOCKS, |times| blocks(&swap.with, times))?;
        let [with, without] = [&swap.with, &swap.without].map(|lines| blocks(lines, times));
        let calls = times as f64 * f64::from(swap.calls);
        self.difference(OF_BLOCKS, [&with, &without], calls, idle)
    }

    /// A block of lines with all that reading and writing them takes.
    pub fn lines(&self, setup: &str, block: &str) -> io::Result<Cost> {
        let blocks = |times: u64| setup.to_string() + &block.repeat(times as usize);
        let times = self.enough(OF_CALLS, blocks)?;
        let none = Cost::default();
        self.difference(OF_CALLS, [&blocks(times), setup], times as f64, none)
    }

    /// How many times, for a run that takes about so long.
    fn enough(&self, plan: Plan, made: impl Fn(u64) -> String) -> io::Result<u64> {
        let [path, _] = &self.scripts;
        let taken = |times: u64| -> io::Result<Duration> {
            fs::write(path, made(times))?;
            Ok(self.run(path)?.min(self.run(path)?).min(self.run(path)?))
        };
        let once = taken(1)?;
        let mut times = 4;
        loop {
            let more = taken(times)?.saturating_sub(once);
            if more * 3 > plan.target || times >= MOST_TIMES {
                let scale = plan.target.as_secs_f64() / more.as_secs_f64().max(1e-9);
                return Ok(((times as f64 * scale) as u64).clamp(2, MOST_TIMES));
            }
            times *= 4;
        }
    }

    /// What the first script takes longer than the second, shared by so many calls, and what is added to each.
    fn difference(
        &self,
        plan: Plan,
        scripts: [&str; 2],
        calls: f64,
        more: Cost,
    ) -> io::Result<Cost> {
        for (path, text) in self.scripts.iter().zip(scripts) {
            fs::write(path, text)?;
        }
        let mut rounds = Vec::new();
        loop {
            rounds.push(self.round(rounds.len() % 2)?);
            if rounds.len() < plan.least {
                continue;
            }
            let own = (plan.read)(&rounds).times(1.0 / calls);
            let cost = own.plus(more);
            if cost.value > WELL * own.error || rounds.len() == plan.most {
                return Ok(cost);
            }
        }
    }

    /// Both scripts once, the one that is asked for first: they take turns, so that neither gains by its place.
    fn round(&self, first: usize) -> io::Result<[f64; 2]> {
        let mut times = [0.0; 2];
        for side in [first, 1 - first] {
            times[side] = self.run(&self.scripts[side])?.as_nanos() as f64;
        }
        Ok(times)
    }

    /// The processor's time for one run, which other programs on the machine hardly change.
    fn run(&self, script: &Path) -> io::Result<Duration> {
        let mut child = Command::new(&self.path)
            .args(self.arguments)
            .stdin(File::open(script)?)
            .stdout(Stdio::null())
            .stderr(Stdio::piped())
            .spawn()?;
        // The pipe ends with the program, which the system forgets only when it is waited for.
        let mut complaint = String::new();
        if let Some(mut errors) = child.stderr.take() {
            errors.read_to_string(&mut complaint)?;
        }
        let taken = processor_time(child.id())?;
        let status = child.wait()?;
        if status.success() {
            return Ok(taken);
        }
        let program = self.path.display();
        Err(io::Error::other(format!(
            "{program} ended with {status} {complaint}"
        )))
    }
}

/// What a process that is ending has had of the processor, as Linux counts it, once it has ended.
fn processor_time(process: u32) -> io::Result<Duration> {
    let told = |what: &str| fs::read_to_string(format!("/proc/{process}/{what}"));
    while !told("stat")?.contains(") Z ") {
        thread::yield_now();
    }
    let counted = told("schedstat")?;
    let nanoseconds = counted.split(' ').next().and_then(|word| word.parse().ok());
    nanoseconds
        .map(Duration::from_nanos)
        .ok_or_else(|| io::Error::other("the system does not count a process's time"))
}

/// Nanoseconds for a copy of so many bytes from one buffer to another: the best of some rounds, over buffers that take turns.
pub fn hand_over(bytes: usize) -> f64 {
    const COPIES: u32 = 1_000;
    let mut buffers = [1, 2, 3, 4].map(|filler: u8| vec![filler; bytes]);
    let mut round = || {
        let start = Instant::now();
        for _ in 0..COPIES {
            buffers.rotate_left(1);
            let [from, to, ..] = &mut buffers;
            black_box(to).copy_from_slice(black_box(from));
        }
        start.elapsed().as_nanos() as f64 / f64::from(COPIES)
    };
    (0..40).map(|_| round()).fold(f64::INFINITY, f64::min)
}
