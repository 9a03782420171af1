//! docs/PERFORMANCE.md with its charts, and records/performance.md, which has the tables.

use crate::calls::{Series, EDGE_STEPS, STARTS};
use crate::chart::{Chart, Line};
use crate::grid::Grid;
use crate::targets::{self, Target};
use std::path::Path;
use std::process::Command;
use std::time::{SystemTime, UNIX_EPOCH};

/// What the benchmark does not measure, said in the output and in the document.
pub const NOT_MEASURED: &str = "\
- Not measured: real labs, of which there is no collection; all lists of a sheet within one process, which
  no call gives. Stack use is in records/stack.md, the gate's time in records/gate-times.txt.
";

/// How the record begins.
const TABLES: &str = "\
# Performance: the tables

Written by `make bench` in the run of which docs/PERFORMANCE.md tells: what is timed, on which sheets
and on which machine. The part \"Trials\" at the end is written by hand, and a run keeps it.

- Twin: the same algorithm in plain Rust, step by step (`tests/bench/src/twin.rs`).
- Lean twin: with a shortcut besides. A vertex that is in all lanes of a block is not looked at again.
- Brute force: a closure for each subset, by passes over all vertices (`tests/bench/src/plain.rs`).
- All were compared with the proved calls' answers before anything was timed.

The sheets have 64 vertices (63 in the first antichain), all of them accounts, 14 initial and 14 losable
ones, and 256 edges where the kind allows it.

- random: edges with any ends in three colours, a sixth of them recovery.
- rings: each vertex needs two others by either of two colours, in rings through all vertices.
- chain with vertex order, against it: links behind the initial vertices, each needing earlier ones.
- self-loops: each vertex needs itself in one colour, and there are random edges.
- all recovery: a random sheet on which every edge is for recovery.
- worst found: of 2,000 sheets tried, the one on which the tables settle last; worst before blocks: the
  one that the same search found while a table was made as a whole.
- antichain of 3,432: a target that any 7 of the 14 initial vertices open, the longest list there is;
  and 28 such targets, with rows of 28 MB.

";

/// Where the part of the record begins that is written by hand.
const TRIALS: &str = "\n## Trials\n";

/// The calls of the document's first table.
const CALLS: [&str; 8] = [
    "check",
    "score",
    "lists",
    "cut_sets",
    "next_opening",
    "bag_score",
    "mark_openings",
    "backdoor",
];

/// What makes a call longer, for the document.
const GROWTH: &str = "\
## How cost grows

Both lists of one target on random sheets of 64 items, each point the mean over five. With at most ten
starting items a call works out one block of 1,024 subsets; each further item doubles the blocks. Edges
make a block settle later. The numbers are the last two tables of the record.

![Time against starting items](performance-starts.svg)

![Time against edges](performance-edges.svg)

";

/// Writes the document, its charts and the record to the folders docs and records of `folder`. What is
/// kept of the record is that of the repository at `root`.
pub fn write(root: &Path, folder: &Path, targets: &[Target], grids: &[Grid], series: &[Series; 2]) {
    let put = |name: &str, text: String| {
        let path = folder.join(name);
        let made = std::fs::create_dir_all(path.parent().expect("a file stands in a folder"));
        let written = made.and_then(|()| std::fs::write(&path, text));
        written.unwrap_or_else(|why| panic!("{name}: {why}"));
    };
    put("docs/performance-starts.svg", starts_chart(&series[0]));
    put("docs/performance-edges.svg", edges_chart(&series[1]));
    put("docs/PERFORMANCE.md", page(targets, grids));
    let before = std::fs::read_to_string(root.join("records/performance.md")).unwrap_or_default();
    let mut tables = TABLES.to_string() + &targets::grid(targets).text();
    grids.iter().for_each(|grid| tables += &format!("\n{}", grid.text()));
    put("records/performance.md", tables + before.find(TRIALS).map_or("", |at| &before[at..]));
}

/// The document: one page.
fn page(targets: &[Target], grids: &[Grid]) -> String {
    let titled = |title: &str| {
        let found = grids.iter().find(|grid| grid.is(title));
        found.unwrap_or_else(|| panic!("no table is called \"{title}\""))
    };
    let typical = titled("A typical lab, by call").cut("A typical lab", &CALLS, &[0, 1, 2]);
    let class = titled("A class").cut("An afternoon with a class", &[], &[0, 1, 2, 3, 4]);
    let worst = titled("Both lists of one target").cut("The worst", &WORST, &[0, 1, 2, 3]);
    [
        opening(),
        typical.narrow(),
        "\n".into(),
        class.narrow(),
        "\nEvery student hands in both lists of every account of every lab.\n\n".into(),
        GROWTH.into(),
        worst.narrow(),
        WORST_SAID.into(),
        targets::others(targets).narrow(),
        "\n## Missed or unknown\n\n".into(),
        targets::reasons(targets),
        NOT_MEASURED.into(),
    ]
    .concat()
}

/// The sheets on which both lists take longest, and the longest lists.
const WORST: [&str; 6] =
    ["worst found", "worst before blocks", "all recovery", "rings", "random", "antichain of 3,432"];

const WORST_SAID: &str = "
Full sheets: 64 items, 14 of them starting. Worst found is the worst of 2,000 sheets that a search tried,
moving edges while the tables settled later; a longer search finds worse ones. The kinds are said in the
record.

";

/// What was run, where and when.
fn opening() -> String {
    let machine = machine();
    let compiler = compiler();
    let date = today();
    format!(
        "# Performance\n\n\
         How long does a call take on my sheet, and what makes it longer? Written by `make bench`; all tables\n\
         are in [records/performance.md](../records/performance.md). Calls are timed by the clock, programs by\n\
         their processor time, side by side in one run; a / b tells how many times b's time a takes.\n\n\
         - Machine: {machine}.\n\
         - Rust: {compiler}. Date: {date}.\n\n"
    )
}

fn compiler() -> String {
    let asked = Command::new("rustc").arg("--version").output();
    asked.map_or("unknown".into(), |told| String::from_utf8_lossy(&told.stdout).trim().to_string())
}

/// The processor and how many of its cores there are.
fn machine() -> String {
    let told = std::fs::read_to_string("/proc/cpuinfo").unwrap_or_default();
    let field = |name: &str| {
        let line = told.lines().find(|line| line.starts_with(name));
        line.and_then(|line| line.split(": ").nth(1)).unwrap_or("unknown").to_string()
    };
    let cores = told.lines().filter(|line| line.starts_with("processor")).count();
    let (model, clock, cache) = (field("model name"), field("cpu MHz"), field("cache size"));
    let family = format!("family {} model {}", field("cpu family"), field("model\t"));
    format!("{model} ({family}), {clock} MHz, cache {cache}, {cores} cores, Linux of 64 bits")
}

/// The day, as year, month and day.
fn today() -> String {
    let since = SystemTime::now().duration_since(UNIX_EPOCH).expect("the clock is past 1970");
    let (year, month, day) = civil((since.as_secs() / 86_400) as i64);
    format!("{year}-{month:02}-{day:02}")
}

/// The date of a day counted from 1970-01-01.
fn civil(days: i64) -> (i64, i64, i64) {
    // Years are taken to begin in March, so that a leap day is a year's last.
    let shifted = days + 719_468;
    let era = shifted.div_euclid(146_097);
    let of_era = shifted.rem_euclid(146_097);
    let year = (of_era - of_era / 1460 + of_era / 36_524 - of_era / 146_096) / 365;
    let of_year = of_era - (365 * year + year / 4 - year / 100);
    let shifted_month = (5 * of_year + 2) / 153;
    let day = of_year - (153 * shifted_month + 2) / 5 + 1;
    let month = if shifted_month < 10 { shifted_month + 3 } else { shifted_month - 9 };
    (year + era * 400 + i64::from(month <= 2), month, day)
}

fn starts_chart(series: &Series) -> String {
    let title = "Both lists of one target, 64 vertices and 256 edges";
    chart(title, "initial vertices, and as many losable ones", &STARTS, series)
}

fn edges_chart(series: &Series) -> String {
    let title = "Both lists of one target, 64 vertices, 14 initial and 14 losable";
    chart(title, "edges", &EDGE_STEPS, series)
}

fn chart(title: &str, across: &str, marks: &[usize], series: &Series) -> String {
    let points =
        |which: usize| series.iter().map(|(at, times)| (*at, times[which] * 1e6)).collect();
    let lines = [
        Line { name: "proved code", colour: "#1f5fa8", points: points(0) },
        Line { name: "twin in Rust", colour: "#c8641e", points: points(1) },
    ];
    Chart { title, across, marks, lines }.svg()
}
