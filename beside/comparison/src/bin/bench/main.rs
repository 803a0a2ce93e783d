//! Times the port's program and the Rust on the same scripts in one run; prints tables, and writes them and a picture to docs/.

mod agreement;
mod bundles;
mod cases;
mod full;
mod layout;
mod ledgers;
mod levels;
mod page;
mod picture;
mod rows;
mod snapshots;
mod stack;
mod timing;
mod trees;
mod work;

use std::error::Error;
use std::path::{Path, PathBuf};
use std::process::ExitCode;
use std::{env, fs, process};

use bundles::Bundle;
use cases::Case;
use layout::Layouts;
use page::{Page, Row, grouped};
use picture::Group;
use rows::Rows;
use snapshots::Snapshot;
use timing::{Cost, Program};
use work::Block;

type Failing<T> = Result<T, Box<dyn Error>>;

const USAGE: &str = "usage: bench REFERENCE PORT ROOT [ROWS]: the two programs to time, and the repository's folder; with ROWS only the rows \
                     whose names have that in them are timed, and nothing is written";
/// The titles of the tables in the picture.
const PICTURED: [&str; 7] = [
    "Changing calls, 48 entries",
    "Readings, 48 entries",
    "A full ledger gone over",
    "Trees",
    "A block's work",
    "Bundles",
    "Snapshots, 48 entries",
];
/// The Rust without the copy of the ledger from which a refused bundle is undone.
const NO_COPY: [&str; 1] = ["--no-copy"];

fn main() -> ExitCode {
    let words: Vec<String> = env::args().skip(1).collect();
    let (rust, port, root, rows) = match words.as_slice() {
        [rust, port, root] => (rust, port, root, None),
        [rust, port, root, rows] => (rust, port, root, Some(rows.as_str())),
        _ => {
            eprintln!("{USAGE}");
            return ExitCode::from(2);
        }
    };
    let scratch = env::temp_dir().join(format!("bench-{}", process::id()));
    let done = fs::create_dir_all(&scratch)
        .map_err(Into::into)
        .and_then(|()| Bench::new([rust, port], &scratch)?.run(Path::new(root), rows));
    fs::remove_dir_all(&scratch).ok();
    match done {
        Ok(()) => ExitCode::SUCCESS,
        Err(error) => {
            eprintln!("bench: {error}");
            ExitCode::FAILURE
        }
    }
}

/// A run under way.
struct Bench<'a> {
    scratch: &'a Path,
    paths: [PathBuf; 2],
    programs: [Program; 2],
    /// The Rust that makes bundles without a copy.
    bare: Program,
    page: Page,
    hand_over: f64,
}

impl<'a> Bench<'a> {
    fn new(programs: [&String; 2], scratch: &'a Path) -> Failing<Self> {
        let found = |program: &String| {
            fs::canonicalize(program).map_err(|error| format!("{program}: {error}"))
        };
        let paths = [found(programs[0])?, found(programs[1])?];
        Ok(Self {
            scratch,
            programs: paths
                .each_ref()
                .map(|path| Program::new(path, &[], scratch)),
            bare: Program::new(&paths[0], &NO_COPY, scratch),
            paths,
            page: Page::default(),
            hand_over: 0.0,
        })
    }

    fn run(mut self, root: &Path, rows: Option<&str>) -> Failing<()> {
        let layouts = Layouts::read(&root.join("crates"))?;
        let asked = Rows::asked(rows);
        asked.check(&self.paths)?;
        let bytes = layouts.of("Ledger")?.size;
        self.hand_over = timing::hand_over(bytes);
        self.page.introduce(bytes, self.hand_over);
        let mut shown = Vec::new();
        for (title, cases) in &asked.groups {
            shown.push(self.calls(title, cases)?);
        }
        shown.push(self.trees(&asked.trees)?);
        shown.push(self.blocks(&asked.blocks)?);
        shown.push(self.bundles(&asked.bundles)?);
        shown.push(self.snapshots(&asked.snapshots)?);
        if rows.is_some() {
            return Ok(());
        }
        self.sizes(&layouts, &asked.script()?)?;
        self.write(root, &shown)
    }

    /// A table of these cases; the rows of it that the picture shows are handed back.
    fn calls(&mut self, title: &str, cases: &[Case]) -> Failing<Vec<Row>> {
        self.page.table(title);
        self.timed(cases)
    }

    /// The rows of these cases; those that the picture shows are handed back.
    fn timed(&mut self, cases: &[Case]) -> Failing<Vec<Row>> {
        let mut shown = Vec::new();
        for case in cases {
            let costs = [self.programs[0].cost(case)?, self.programs[1].cost(case)?];
            let row = self.row(case.name.to_string(), case.entries, costs);
            shown.extend(row.filter(|_| case.pictured));
        }
        Ok(shown)
    }

    /// Trees, and behind them how counterparts by tree stand to those by depth.
    fn trees(&mut self, cases: &[Case]) -> Failing<Vec<Row>> {
        self.page.trees();
        let shown = self.timed(cases)?;
        self.page.by_tree(&shown);
        Ok(shown)
    }

    fn blocks(&mut self, blocks: &[Block]) -> Failing<Vec<Row>> {
        self.page.table("A block's work");
        let mut shown = Vec::new();
        for block in blocks {
            shown.extend(self.block(block)?);
        }
        Ok(shown)
    }

    fn block(&mut self, block: &Block) -> Failing<Vec<Row>> {
        let [rust, port] = &self.programs;
        let case = &block.case;
        let lines = [
            rust.lines(&case.setup, &block.lines)?,
            port.lines(&case.setup, &block.lines)?,
        ];
        let bare = [rust.cost(case)?, port.cost(case)?];
        let rows = [
            self.row(block.name.clone(), case.entries, lines),
            self.row(case.name.to_string(), case.entries, bare),
        ];
        Ok(rows.into_iter().flatten().collect())
    }

    /// Bundles, by the Rust that keeps no copy where there is nothing to undo; behind whole ones that are accepted what it takes with the copy.
    fn bundles(&mut self, bundles: &[Bundle]) -> Failing<Vec<Row>> {
        self.page.bundles();
        let mut shown = Vec::new();
        for bundle in bundles {
            let case = &bundle.case;
            let cost = |program: &Program| match &bundle.items {
                Some((items, empty)) => program.item(case, *items, empty),
                None => program.cost(case),
            };
            let [copying, port] = &self.programs;
            let rust = if bundle.refused { copying } else { &self.bare };
            let costs = [cost(rust)?, cost(port)?];
            let whole = bundle.items.is_none() && !bundle.refused;
            let copying = if whole { Some(cost(copying)?) } else { None };
            shown.extend(self.longer(case, costs, copying));
        }
        Ok(shown)
    }

    /// Snapshots; beside a restore the Rust makes the calls that lead to the ledger, and behind it stands what the comparison's reader takes.
    fn snapshots(&mut self, snapshots: &[Snapshot]) -> Failing<Vec<Row>> {
        self.page.snapshots();
        let mut shown = Vec::new();
        for Snapshot { case, calls } in snapshots {
            let [rust, port] = &self.programs;
            let own = rust.cost(case)?;
            let calls = calls.as_ref().map(|calls| rust.cost(calls)).transpose()?;
            let costs = [calls.unwrap_or(own), port.cost(case)?];
            shown.extend(self.longer(case, costs, calls.map(|_| own)));
        }
        Ok(shown)
    }

    /// Put a row on the page; it is handed back for the picture if its figures are clear.
    fn row(&mut self, name: String, entries: u64, costs: [Cost; 2]) -> Option<Row> {
        let row = Row::new(name, entries, costs);
        self.page.row(&row, self.hand_over);
        row.is_clear().then_some(row)
    }

    /// Put a row on the page with a figure more; it is handed back if the picture shows it.
    fn longer(&mut self, case: &Case, costs: [Cost; 2], last: Option<Cost>) -> Option<Row> {
        let row = Row::new(case.name.to_string(), case.entries, costs);
        self.page.longer(&row, last, self.hand_over);
        (case.pictured && row.is_clear()).then_some(row)
    }

    fn sizes(&mut self, layouts: &Layouts, all_calls: &str) -> Failing<()> {
        self.page.heading("Sizes of the port");
        self.page.columns(&["what", "bytes"]);
        for name in ["Entry", "Roster", "Issuers", "Departures", "Ledger"] {
            let size = grouped(layouts.of(name)?.size);
            self.page.say(&format!("| `{name}` | {size} |"));
        }
        let least = stack::least(&self.paths[1], all_calls, self.scratch)?;
        self.page.tell_stack(least);
        Ok(())
    }

    fn write(self, root: &Path, shown: &[Vec<Row>]) -> Failing<()> {
        let groups: Vec<Group> = PICTURED
            .into_iter()
            .zip(shown)
            .map(|(title, rows)| Group { title, rows })
            .collect();
        if let Some(name) = picture::name_twice(&groups) {
            return Err(format!("two rows of the picture are named: {name}").into());
        }
        let docs = root.join("docs");
        fs::create_dir_all(&docs)?;
        let (page, picture) = (docs.join("BENCHMARK.md"), docs.join("benchmark.svg"));
        fs::write(&page, self.page.text())?;
        fs::write(&picture, picture::draw(&groups))?;
        println!("\nwrote {} and {}", page.display(), picture.display());
        Ok(())
    }
}
