//! The page of tables: every line is printed as it comes and kept for the file.

use crate::timing::Cost;
use crate::trees::PAIRS;

const COLUMNS: [&str; 6] = [
    "call",
    "entries",
    "the Rust, ns",
    "the port, ns",
    "the Rust / the port",
    "the port in hand-overs",
];

const INTRODUCTION: [&str; 5] = [
    "`beside/bench` makes this page and its picture: both sides in one run on the same machine, over the same scripts, whose answers it first \
     finds equal.",
    "A row is what a call costs on a ledger with so many entries, in the processor's time and by the best of several runs: a script that \
     makes the call often (`repeat`), less one that makes it once; how often is chosen for each side, for runs of some 25 ms. A call that \
     changes the ledger is timed in a block of lines that restores it, less a block with idle lines of the same length in its place: the \
     median difference of runs that take turns, and what the idle lines cost by `repeat` is added. So the text, and what the programs do \
     around a call, drops out unless the row says otherwise; calls that are named together are counted together.",
    "A lent list is filled anew before each turn. What that takes is measured on each side, by a reading that finds nothing to write, with \
     such a list and with none, and is taken off. The loop around a call is left in: it is less than `local` costs, the smallest call. On both sides a call \
     begins with the numbers of its line and ends with the words of its answer: the Rust's types are made of the words of an admission, a record or a \
     finalization, and its lists are written out as words.",
    "Behind ± stands how far a figure scatters, where that is more than a tenth of it. Of a row in which it is more than a third no quotient \
     is told.",
    "On an empty ledger calls name transactions that are not owed. Where all fall or close, what the Rust frees drops out too: \
     the making that begins either block would free it. Of makings that are repeated nothing is read but the last, so the compiler may make \
     that one alone. The Rust has no counts by shard: those that are kept beside it, in a map, are in its figures. `dump` is the script's own and is not timed.",
];

const OF_BUNDLES: [&str; 3] = [
    "A bundle hands over all that a block brings (`docs/VALIDATOR.md`). The Rust has none: beside it the calls of the items are made one by one, by the functions of the single calls, \
     from the words of the bundle, which either side has to take apart. Nor can the Rust undo a call. Its figure is that of the calls alone, by a program that is told to keep no copy of \
     the ledger; the last column has what it takes with the copy from which it would undo a refused bundle. The one that is refused needs that copy, so it is in the Rust's figure there; what the \
     calls take without it is in the row above.",
    "Each whole bundle restores its ledger: it first releases what the one before it took in, and what its own records rebuild, then takes the same in again, and its absences are on \
     those. Its terminals are of shards that are known. That of a quiet block has 14 admissions, with up to 8 records each, 8 absences, 2 finalizations and a terminal; that after a split 6 \
     admissions, 8 absences, 3 finalizations, 4 abandonment records of 8 entries, of which 2 are rebuilt, and 4 terminals, beside executed entries and 32 departures; the full one 16 \
     admissions, 24 absences, 12 finalizations, 8 abandonment records of 2 entries, of which one is rebuilt, and 4 terminals. In the refused one the last item that is done is an absence of no shard.",
    "An item is a bundle of as many of its kind as fit (32 terminals; 24 abandonment records, finalizations or admissions; 64 absences), less an empty bundle on the same ledger, shared by their \
     number; a copy drops out with that. It is timed in a block that begins with a making, less the same block with a bundle in its place that is refused for a kind.",
];

const OF_SNAPSHOTS: [&str; 2] = [
    "`snapshot` writes all that a ledger holds as words, `restore` makes a ledger of such words (`docs/VALIDATOR.md`). The half-full ledger has 24 legs and 16 departures, the full \
     one 48 legs and 32 departures; each leg has 8 routes, 8 records, a certificate, 8 absences and 8 marks. Their snapshots have 2,207 and 4,407 words, that of the empty one has 7.",
    "The Rust has neither call. Its figure is, beside `snapshot`, that of the comparison's own writer; beside `restore`, that of the calls that lead to the same ledger, each made once: a \
     making, then the admissions, certificates, absences, marks, terminals and stamps, 457 calls for the half-full ledger and 905 for the full one. That the ledger is the same is seen by \
     `dump`. The last column has the comparison's own reader of snapshots. Restores and calls alike are timed in blocks, and come upon a ledger as full as the one that they make: the Rust \
     has to free that, which is in its figures, and the port has nothing to free.",
];

const OF_TREES: &str = "The three calls take a tree as marks (`docs/VALIDATOR.md`): here one of 31 leaves, the first of them at depth 16, the last eight at depth 4. The Rust's trie lies outside its ledger and is stood in for, \
     as the leaves with the first route of each. They are made of the marks in every call and searched by halves, which is in the Rust's figures. Counterparts are those of an entry with eight remote routes beside 32 departures; \
     the routes lie in leaves at depth 4, so by depth 4 the same is listed.";

/// How many times its error a figure must be to stand without it, and to be set against another.
const SURE: f64 = 10.0;
const CLEAR: f64 = 3.0;

/// One row of a table: what both sides cost.
pub struct Row {
    pub name: String,
    pub entries: u64,
    pub rust: Cost,
    pub port: Cost,
}

impl Row {
    pub fn new(name: String, entries: u64, [rust, port]: [Cost; 2]) -> Self {
        Self {
            name,
            entries,
            rust,
            port,
        }
    }

    /// Whether both figures are more than their scatter.
    pub fn is_clear(&self) -> bool {
        self.rust.exceeds(CLEAR) && self.port.exceeds(CLEAR)
    }
}

/// By which Rattle the port was built, where `beside/bench` tells it.
fn built_by() -> String {
    match std::env::var("RATTLE") {
        Ok(kit) if !kit.is_empty() => format!("The port was built by `{kit}`."),
        _ => String::new(),
    }
}

#[derive(Default)]
pub struct Page {
    text: String,
}

impl Page {
    pub fn say(&mut self, line: &str) {
        println!("{line}");
        self.text += line;
        self.text.push('\n');
    }

    pub fn text(&self) -> &str {
        &self.text
    }

    pub fn heading(&mut self, title: &str) {
        self.say("");
        self.say(&format!("## {title}"));
        self.say("");
    }

    pub fn introduce(&mut self, bytes: usize, hand_over: f64) {
        let (bytes, hand_over) = (grouped(bytes), nanoseconds(hand_over));
        self.say("# Benchmark");
        self.say("");
        self.say("![What a call costs](benchmark.svg)");
        for paragraph in INTRODUCTION {
            self.say("");
            self.say(paragraph);
        }
        self.say("");
        self.say(&format!(
            "A hand-over is a copy of a ledger, {bytes} bytes, from one buffer to another: {hand_over} ns in this run. {}",
            built_by()
        ));
    }

    pub fn table(&mut self, title: &str) {
        self.heading(title);
        self.columns(&COLUMNS);
    }

    pub fn trees(&mut self) {
        self.heading("Trees");
        self.say(OF_TREES);
        self.say("");
        self.columns(&COLUMNS);
    }

    pub fn bundles(&mut self) {
        self.longer_table("Bundles", &OF_BUNDLES, "the Rust with a copy, ns");
    }

    pub fn snapshots(&mut self) {
        let reader = "the comparison's own reader, ns";
        self.longer_table("Snapshots", &OF_SNAPSHOTS, reader);
    }

    /// A table with a column more than the others, behind what is to be said of it.
    fn longer_table(&mut self, title: &str, paragraphs: &[&str], column: &str) {
        self.heading(title);
        for paragraph in paragraphs {
            self.say(paragraph);
            self.say("");
        }
        self.columns(&[&COLUMNS[..], &[column]].concat());
    }

    /// How many times as long counterparts take by tree as by depth, where the figures of both rows are clear.
    pub fn by_tree(&mut self, rows: &[Row]) {
        let named = |name: &str| rows.iter().find(|row| row.name == name);
        for pair in PAIRS {
            let (Some(depth), Some(tree)) = (named(pair.by_depth), named(pair.by_tree)) else {
                continue;
            };
            let [port, rust] = [
                tree.port.value / depth.port.value,
                tree.rust.value / depth.rust.value,
            ]
            .map(rounded);
            self.say("");
            self.say(&format!(
                "Counterparts by tree / by depth, {}: {port} times for the port, where twice is allowed, and {rust} times for the Rust.",
                pair.when
            ));
        }
    }

    pub fn tell_stack(&mut self, least: Option<u64>) {
        let told = match least {
            Some(kib) => format!(
                "Stack: {kib} KiB is the least limit (`ulimit -s`) under which the port's program answers a script of all calls on full \
                 ledgers as it does without one. The program's own buffers are in it."
            ),
            None => "Stack: no limit was found under which the port's program answers.".into(),
        };
        self.say("");
        self.say(&told);
    }

    /// The head of a table with these columns, the first of them words and the others numbers.
    pub fn columns(&mut self, names: &[&str]) {
        self.say(&format!("| {} |", names.join(" | ")));
        self.say(&format!("|---|{}", "---:|".repeat(names.len() - 1)));
    }

    pub fn row(&mut self, row: &Row, hand_over: f64) {
        self.cells(&cells(row, hand_over));
    }

    /// With what the last column of a longer table says, where that is told.
    pub fn longer(&mut self, row: &Row, last: Option<Cost>, hand_over: f64) {
        let last = vec![last.map_or(String::new(), told)];
        self.cells(&[cells(row, hand_over), last].concat());
    }

    fn cells(&mut self, cells: &[String]) {
        self.say(&format!("| {} |", cells.join(" | ")));
    }
}

fn cells(row: &Row, hand_over: f64) -> Vec<String> {
    let Row {
        name,
        entries,
        rust,
        port,
    } = row;
    let quotient = |over: f64, under: f64| match row.is_clear() {
        true => rounded(over / under),
        false => "?".into(),
    };
    vec![
        name.clone(),
        entries.to_string(),
        told(*rust),
        told(*port),
        quotient(rust.value, port.value),
        quotient(port.value, hand_over),
    ]
}

/// A figure, with its error where that is not small.
fn told(cost: Cost) -> String {
    let value = nanoseconds(cost.value);
    if cost.exceeds(SURE) {
        value
    } else {
        format!("{value} ± {}", nanoseconds(cost.error))
    }
}

/// Whole nanoseconds, or tenths of a few.
pub fn nanoseconds(value: f64) -> String {
    if value < 20.0 {
        format!("{value:.1}")
    } else {
        grouped(value.round() as usize)
    }
}

/// More places the smaller it is.
fn rounded(value: f64) -> String {
    match value {
        10.0.. => format!("{value:.1}"),
        0.1.. => format!("{value:.2}"),
        _ => format!("{value:.3}"),
    }
}

/// A number with its thousands set apart.
pub fn grouped(number: usize) -> String {
    match number {
        0..1000 => number.to_string(),
        _ => format!("{},{:03}", grouped(number / 1000), number % 1000),
    }
}
