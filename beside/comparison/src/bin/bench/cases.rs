//! A row of the tables: a ledger, and what is timed on it by repeating or by swapping lines.

use crate::ledgers::script;

/// One row: a ledger and what is timed on it.
pub struct Case {
    pub name: &'static str,
    pub entries: u64,
    pub setup: String,
    pub work: Work,
    /// Whether the picture shows it.
    pub pictured: bool,
}

pub enum Work {
    /// A call that can be made again and again: only the first time may change the ledger.
    Repeated(String),
    Swapped(Swap),
}

/// A block of lines that leaves the ledger as it found it, beside a block with idle lines in place of those that are timed: as much
/// text, but they change nothing. What the idle lines cost by themselves is added to the difference, so that the text's cost drops out.
pub struct Swap {
    pub with: Vec<String>,
    pub without: Vec<String>,
    pub idle: Vec<String>,
    /// How many calls of one kind the difference has.
    pub calls: u32,
}

impl Swap {
    /// Lines that are all timed, each with an idle one in its place; their cost is taken together.
    pub fn of_all(with: Vec<String>, without: Vec<String>) -> Self {
        Self {
            with,
            idle: without.clone(),
            without,
            calls: 1,
        }
    }

    /// One call among lines that stand in both blocks.
    pub fn of_one(with: Vec<String>, without: Vec<String>, idle: String) -> Self {
        Self {
            with,
            without,
            idle: vec![idle],
            calls: 1,
        }
    }

    /// Idle lines with how many there are of their shape, a name and a count of numbers: they change nothing, so one costs what another does.
    pub fn idle_shapes(&self) -> Vec<(&str, f64)> {
        let shape = |line: &str| {
            let mut words = line.split(' ');
            (words.next().map(String::from), words.count())
        };
        let mut shapes: Vec<(&str, f64)> = Vec::new();
        for line in &self.idle {
            let known = shapes.iter_mut().find(|(one, _)| shape(one) == shape(line));
            match known {
                Some((_, count)) => *count += 1.0,
                None => shapes.push((line, 1.0)),
            }
        }
        shapes
    }
}

impl Case {
    fn new(name: &'static str, entries: u64, setup: &[String], work: Work) -> Self {
        Self {
            name,
            entries,
            setup: script(setup),
            work,
            pictured: false,
        }
    }

    pub fn repeated(name: &'static str, entries: u64, setup: &[String], call: String) -> Self {
        Self::new(name, entries, setup, Work::Repeated(call))
    }

    pub fn swapped(name: &'static str, entries: u64, setup: &[String], swap: Swap) -> Self {
        Self::new(name, entries, setup, Work::Swapped(swap))
    }

    pub fn pictured(self) -> Self {
        let pictured = true;
        Self { pictured, ..self }
    }

    /// The blocks that it is made of, as scripts.
    pub fn blocks(&self) -> Vec<String> {
        match &self.work {
            Work::Repeated(call) => vec![format!("{call}\n")],
            Work::Swapped(swap) => vec![script(&swap.with), script(&swap.without)],
        }
    }
}
