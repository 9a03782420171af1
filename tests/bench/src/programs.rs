//! The program `report` from start to end, against programs in plain Rust.

use crate::grid::{millis, ratio, with_commas, Grid};
use crate::kinds::{tables, Kind, ROOM};
use crate::ready::{List, Ready};
use crate::targets::{against_twin, largest, Target};
use crate::timing::{median, processor_time};
use crate::whole::{twin_time, Lists};
use crate::{twin, Rounds};
use std::path::{Path, PathBuf};
use std::process::{Command, Stdio};

/// The programs that are timed, and where their inputs are put.
pub struct Programs {
    report: PathBuf,
    stand_in: PathBuf,
    inputs: PathBuf,
}

impl Programs {
    /// The program `report` of the repository at `root`, and this crate's second program.
    pub fn at(root: &Path) -> Programs {
        let own = std::env::current_exe().expect("a running program has a file");
        let inputs = root.join("build/bench");
        std::fs::create_dir_all(&inputs).expect("build/bench can be made");
        let report = root.join("crates/report/out/report");
        Programs { report, stand_in: own.with_file_name("stand_in"), inputs }
    }

    /// The program `report`.
    pub fn report(&self) -> &Path {
        &self.report
    }

    /// Writes an input to a file that is named after its kind.
    pub fn input(&self, kind: &str, ending: &str, bytes: &[u8]) -> PathBuf {
        let name = kind.replace(", ", "-").replace([' ', ','], "-");
        let path = self.inputs.join(name).with_extension(ending);
        std::fs::write(&path, bytes).expect("an input is written to build/bench");
        path
    }
}

/// What a program prints.
pub fn printed(program: &Path, arguments: &[&str], input: &Path) -> Vec<u8> {
    let input = std::fs::File::open(input).expect("the input of a program is there");
    let mut command = Command::new(program);
    command.args(arguments).stdin(Stdio::from(input));
    command.output().expect("a program runs to its end").stdout
}

/// All lists of a sheet, made by the twin, as the rows' program takes them.
fn ready_lists(kind: &Kind) -> Ready {
    let mut tables = tables();
    twin::scores(&kind.setup, &kind.setup.graph, &mut tables);
    let mut lists = Vec::new();
    twin::lists(&kind.setup, &tables, &mut vec![0; ROOM], |target, loss, list| {
        lists.push(List { target, loss, sets: list.to_vec() });
    });
    let values = |loss: bool| (0..64).map(|v| kind.setup.value(loss, v)).collect();
    let read = brute::sheet::read(&kind.sheet).expect("a sheet of the benchmark is accepted");
    Ready { names: read.names_in(&kind.sheet), values: [values(false), values(true)], lists }
}

/// Rows of so many bytes are many.
const LONG: usize = 1 << 20;

/// The times of a sheet's programs.
pub struct Timed {
    name: String,
    rows: usize,
    report: f64,
    read: f64,
    twin: f64,
    by_write: f64,
    by_bytes: f64,
    /// The report where all items are credentials.
    bare: f64,
    /// The report's further time for rows, on the sheet without its recovery edges.
    other_rows: f64,
    /// A program with the twin's tables and scores.
    scores: f64,
}

impl Timed {
    /// Whether the sheet's rows are many.
    pub fn is_long(&self) -> bool {
        self.rows >= LONG
    }

    /// The report's time without that of a program that starts and reads the sheet.
    fn computing(&self) -> f64 {
        self.report - self.read
    }

    /// The same, and the time for the lists without recovery with their rows.
    pub fn both_graphs(&self) -> f64 {
        self.computing() + self.other_rows
    }
}

/// The sheet without recovery: no edge of a colour in which one is marked.
fn without_recovery(sheet: &[u8]) -> Vec<u8> {
    let text = String::from_utf8_lossy(sheet);
    let (items, edges) = text.split_once("\n\n").expect("a sheet has two parts");
    let colour_of =
        |edge: &'_ str| edge.split(' ').skip(1).take(2).map(String::from).collect::<Vec<_>>();
    let marked: Vec<_> = edges.lines().filter(|edge| edge.ends_with(" 1")).map(colour_of).collect();
    let kept = edges.split_inclusive('\n').filter(|edge| !marked.contains(&colour_of(edge)));
    format!("{items}\n\n{}", kept.collect::<String>()).into_bytes()
}

/// The sheet with credentials in the place of accounts: its report has no rows.
fn credentials_only(sheet: &[u8]) -> Vec<u8> {
    String::from_utf8_lossy(sheet).replace(" a ", " c ").into_bytes()
}

/// Fails where the rows written from the twin's lists are not the report's. Gives their length.
fn same_rows(kind: &Kind, programs: &Programs, sheet: &Path, ready: &Path) -> usize {
    let rows = printed(&programs.stand_in, &["rows"], ready);
    let bytes = printed(&programs.stand_in, &["bytes"], ready);
    assert!(bytes == rows, "{}: the two ways to write rows differ", kind.name);
    let report = printed(&programs.report, &[], sheet);
    let expected = [b"target way size sum items\n", &rows[..], b"\n"].concat();
    let same = report.starts_with(&expected);
    assert!(same, "{}: the program report has other rows than the twin", kind.name);
    rows.len()
}

/// Times a sheet's programs in turn.
fn time_programs(kind: &Kind, programs: &Programs, rounds: &Rounds) -> Timed {
    let sheet = programs.input(&kind.name, "sheet", &kind.sheet);
    let ready = programs.input(&kind.name, "ready", &ready_lists(kind).bytes());
    let rows = same_rows(kind, programs, &sheet, &ready);
    let bare = programs.input(&kind.name, "bare", &credentials_only(&kind.sheet));
    let other = without_recovery(&kind.sheet);
    let other_bare = programs.input(&kind.name, "other-bare", &credentials_only(&other));
    let other = programs.input(&kind.name, "other", &other);
    let many = if rows >= LONG { rounds.long_programs } else { rounds.programs };
    let words: Vec<u8> = kind.words.iter().flat_map(|word| word.to_le_bytes()).collect();
    let words = programs.input(&kind.name, "words", &words);
    let mut times: [Vec<f64>; 8] = Default::default();
    for _ in 0..many {
        times[0].push(processor_time(&programs.report, &[], &sheet, 0));
        times[1].push(processor_time(&programs.stand_in, &["read"], &sheet, 0));
        times[2].push(processor_time(&programs.stand_in, &["rows"], &ready, 0));
        times[3].push(processor_time(&programs.stand_in, &["bytes"], &ready, 0));
        times[4].push(processor_time(&programs.report, &[], &bare, 0));
        times[5].push(processor_time(&programs.stand_in, &["scores"], &words, 0));
        times[6].push(processor_time(&programs.report, &[], &other, 0));
        times[7].push(processor_time(&programs.report, &[], &other_bare, 0));
    }
    let [report, read, by_write, by_bytes, bare, scores, other, other_bare] = times.map(median);
    let other_rows = other - other_bare;
    let twin = twin_time(kind, Lists::WithRecovery, rounds.whole);
    let name = kind.name.clone();
    Timed { name, rows, report, read, twin, by_write, by_bytes, bare, other_rows, scores }
}

/// The times of all programs on each kind of sheet.
pub fn time_all(kinds: &[Kind], programs: &Programs, rounds: &Rounds) -> Vec<Timed> {
    kinds.iter().map(|kind| time_programs(kind, programs, rounds)).collect()
}

/// The program `report` on the sheet with the most rows alone.
pub fn most_rows(
    kind: &Kind,
    programs: &Programs,
    rounds: &Rounds,
    targets: &mut Vec<Target>,
) -> Grid {
    let timed = time_programs(kind, programs, rounds);
    judge_rows(&timed, targets);
    grid_of(&[timed])
}

/// The program `report` on each kind of sheet.
pub fn reports(timed: &[Timed], targets: &mut Vec<Target>) -> Grid {
    judge(timed, targets);
    grid_of(timed)
}

fn grid_of(timed: &[Timed]) -> Grid {
    let mut grid = new_grid();
    for t in timed {
        grid.row(vec![
            t.name.clone(),
            with_commas(t.rows as u64),
            millis(t.report),
            millis(t.read),
            millis(t.twin),
            ratio(t.report, t.read + t.twin),
            ratio(t.computing(), t.twin),
            millis(t.by_write),
            ratio(t.report, t.by_write),
            millis(t.by_bytes),
            ratio(t.report, t.by_bytes),
        ]);
    }
    grid
}

fn new_grid() -> Grid {
    let mut grid = Grid::new(
        "The program `report` from start to end",
        &[
            "sheet",
            "rows, bytes",
            "report, ms",
            "start, ms",
            "twin, ms",
            "report / (start + twin)",
            "(report - start) / twin",
            "rows by write!, ms",
            "report / write!",
            "rows by bytes, ms",
            "report / bytes",
        ],
    );
    grid.note(
        "Whole processes, run in turn; input from a file, output to /dev/null. Start: a Rust program \
         that reads the sheet and ends. Twin: the four tables, all scores, and the lists with \
         recovery, within the benchmark, where memory is at hand; to a process it is given cleared, \
         as it is touched. Rows: a Rust program that reads ready lists and writes the same rows (they \
         were compared), by `write!` into a buffered writer or by appending bytes by hand.",
    );
    grid
}

fn judge(timed: &[Timed], targets: &mut Vec<Target>) {
    let short = timed.iter().filter(|t| !t.is_long());
    let ratios: Vec<(String, f64)> =
        short.map(|t| (t.name.clone(), t.report / (t.read + t.twin))).collect();
    let (name, most) = largest(&ratios);
    targets.push(Target::measured(
        "`report` / (start, read and twin), rows below 1 MB",
        "at most 3 times",
        format!("at most {most:.2} ({name})"),
        most <= 3.0,
    ));
    judge_rows(timed.iter().max_by_key(|t| t.rows).expect("some kind was measured"), targets);
}

/// The report with the most rows, beside programs that only write them.
fn judge_rows(longest: &Timed, targets: &mut Vec<Target>) {
    let by_write = "`report` / rows by `write!`, most rows";
    let by_bytes = "`report` / rows by bytes (the faster way), most rows";
    for (what, other, bound, most) in [
        (by_write, longest.by_write, "at most 2.5 times, rows of 16 MB", 2.5),
        (by_bytes, longest.by_bytes, "at most 1.0 times, rows of 28 MB", 1.0),
    ] {
        let times = longest.report / other;
        let seen = format!("{times:.2} ({} bytes)", with_commas(longest.rows as u64));
        targets.push(Target::measured(what, bound, seen, times <= most));
    }
}

/// The program's tables and scores alone: the report of each sheet with credentials only.
pub fn tables_and_scores(timed: &[Timed], targets: &mut Vec<Target>) -> Grid {
    let mut grid = Grid::new(
        "Tables and scores of a whole sheet by programs",
        &["sheet", "report without rows, ms", "program with the twin, ms", "ratio"],
    );
    grid.note(
        "The same sheets with credentials in the place of accounts: the program `report` then fills \
         its four tables and works out all scores with and without recovery, but makes no list and \
         prints headers alone. Beside it a Rust program that reads the setup's words and does the same \
         by the twin. Whole processes, run in turn.",
    );
    let mut ratios = Vec::new();
    for t in timed {
        let cells = [millis(t.bare), millis(t.scores), ratio(t.bare, t.scores)];
        grid.row([vec![t.name.clone()], cells.to_vec()].concat());
        ratios.push((t.name.clone(), t.bare / t.scores));
    }
    let what = "all tables and scores of a sheet, `report` / program with the twin";
    targets
        .push(against_twin(what, &ratios).because("The program reads the sheet's fields besides."));
    grid
}

/// The report of the paper's case study.
pub fn case_study(root: &Path, programs: &Programs, rounds: &Rounds) -> Grid {
    let mut grid = Grid::new("The paper's case study", &["sheet", "report, ms"]);
    grid.note(
        "Document 003 reports 60 seconds for its case study, with two other scoring schemes and on \
         a laptop of its time (2019). The graph here is read off its text and the scores are \
         others, so this is no comparison of like with like.",
    );
    for name in ["case-study-weights", "case-study-location"] {
        let sheet = root.join("examples").join(name).with_extension("sheet");
        let runs = (0..rounds.programs).map(|_| processor_time(&programs.report, &[], &sheet, 0));
        grid.row(vec![format!("examples/{name}.sheet"), millis(median(runs.collect()))]);
    }
    grid
}
