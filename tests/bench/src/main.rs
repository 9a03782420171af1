//! Times the proved code beside the same algorithm in plain Rust, a brute force, and plain
//! programs. `bench` prints tables and writes docs/PERFORMANCE.md with two charts and
//! records/performance.md; `bench quick` makes few rounds and writes the same files to the folders docs
//! and records of build/bench/. With another word it prints a part alone: `bench marking` the table of
//! marks, `rows` that of the report with the most rows, `reports` those of reading and of reports,
//! `forecast` that of forecasts, `next` that of next sets, `living` those of calls that change a setup,
//! `closing` that of closures, `opens` that of quick answers, `cuts` that of cut sets, `intruders` that
//! of kinds of intruder, `register` that of the class register, `handins` that of hand-in lines, `bags` that of bag scores, and `pool`
//! that of two sheets pooled.

mod bags;
mod calls;
mod chart;
mod check;
mod clingo;
mod closing;
mod cuts;
mod document;
mod forecast;
mod formed;
mod grid;
mod handins;
mod intruders;
mod kinds;
mod living;
mod marking;
mod next;
mod older;
mod opens;
mod plain;
mod pool;
mod programs;
mod proved;
mod ready;
mod register;
mod targets;
mod timing;
mod twin;
mod typical;
mod whole;

use programs::Programs;
use std::path::Path;
use std::process::ExitCode;
use std::time::Instant;

/// How often each kind of work is timed.
struct Rounds {
    calls: usize,
    points: usize,
    whole: usize,
    brute: usize,
    programs: usize,
    long_programs: usize,
    clingo: usize,
    marking: usize,
}

const FULL: Rounds = Rounds {
    calls: 301,
    points: 101,
    whole: 201,
    brute: 25,
    programs: 151,
    long_programs: 31,
    clingo: 51,
    marking: 7,
};
const QUICK: Rounds = Rounds {
    calls: 5,
    points: 3,
    whole: 3,
    brute: 1,
    programs: 5,
    long_programs: 1,
    clingo: 3,
    marking: 1,
};

fn main() -> ExitCode {
    let arguments: Vec<String> = std::env::args().skip(1).collect();
    let words: Vec<&str> = arguments.iter().map(String::as_str).collect();
    match words[..] {
        [] => run(&FULL, ""),
        ["quick"] => run(&QUICK, "build/bench"),
        ["typical"] => print_typical(),
        ["typical", call] => typical::make_once(call),
        ["marking"] => print_marking(),
        ["rows"] => print_rows(),
        ["reports"] => print_reports(),
        ["forecast"] => print_forecasts(),
        ["next"] => print_next_sets(),
        ["living"] => print_living(),
        ["closing"] => print_closing(),
        ["opens"] => print_opens(),
        ["cuts"] => print_cuts(),
        ["intruders"] => print_intruders(),
        ["register"] => print_register(),
        ["handins"] => print_handins(),
        ["bags"] => print_bags(),
        ["pool"] => print_pools(),
        _ => {
            eprintln!("usage: bench [quick | typical [CALL] | marking | rows | reports | forecast | next | living | closing | opens | cuts | intruders | register | handins | bags | pool]");
            return ExitCode::from(2);
        }
    }
    ExitCode::SUCCESS
}

fn run(rounds: &Rounds, folder: &str) {
    let start = Instant::now();
    let root = Path::new(env!("CARGO_MANIFEST_DIR")).join("../..");
    let programs = Programs::at(&root);
    let kinds = kinds::all();
    kinds.iter().for_each(check::same_answers);
    println!("bench: twin and brute force answer as the proved calls, on {} sheets\n", kinds.len());
    let mut targets = Vec::new();
    let mut grids = Vec::new();
    let mut show = |grid: grid::Grid| {
        println!("{}", grid.text());
        grids.push(grid);
    };
    let timed = programs::time_all(&kinds, &programs, rounds);
    show(whole::all_lists(&kinds, &timed, rounds, &mut targets));
    show(calls::one_target(&kinds, rounds, &mut targets));
    show(programs::tables_and_scores(&timed, &mut targets));
    show(programs::reports(&timed, &mut targets));
    show(calls::reading(rounds, &mut targets));
    show(forecast::forecasts(&kinds, rounds, &mut targets));
    show(next::next_sets(&kinds, rounds, &mut targets));
    show(living::changes(&kinds, rounds, &mut targets));
    show(living::against_reading(&kinds, rounds, &mut targets));
    show(living::nothing_held(&kinds, rounds, &mut targets));
    show(closing::closures(&kinds, rounds, &mut targets));
    show(opens::quick_answers(&kinds, rounds, &mut targets));
    show(cuts::cut_sets(&kinds, rounds, &mut targets));
    show(intruders::scores(&kinds, rounds, &mut targets));
    show(bags::bag_scores(&kinds, rounds, &mut targets));
    show(marking::marking(antichain(&kinds), rounds, &mut targets));
    show(register::register(&kinds, rounds, &mut targets));
    show(handins::lines(rounds, &mut targets));
    show(pool::pooling(rounds, &mut targets));
    let clingo = clingo::opening_lists(&kinds, &programs, rounds, &mut targets);
    clingo.into_iter().for_each(&mut show);
    show(programs::case_study(&root, &programs, rounds));
    show(typical::calls());
    show(typical::class());
    let series = [calls::by_starts(rounds), calls::by_edges(rounds)];
    show(calls::series_grid("The first chart's numbers", "initial and losable", &series[0]));
    show(calls::series_grid("The second chart's numbers", "edges", &series[1]));
    let verdicts = targets::grid(&targets);
    let reasons = targets::reasons(&targets);
    println!("{}\n{reasons}", verdicts.text());
    println!("{}", document::NOT_MEASURED);
    println!("bench: {} seconds", start.elapsed().as_secs());
    document::write(&root, &root.join(folder), &targets, &grids, &series);
}

/// The sheet on which sets are marked.
fn antichain(kinds: &[kinds::Kind]) -> &kinds::Kind {
    named(kinds, "antichain of 3,432")
}

fn named<'a>(kinds: &'a [kinds::Kind], name: &str) -> &'a kinds::Kind {
    kinds.iter().find(|kind| kind.name == name).expect("a kind has that name")
}

fn print_typical() {
    println!("{}\n{}", typical::calls().text(), typical::class().text());
}

fn print_rows() {
    let root = Path::new(env!("CARGO_MANIFEST_DIR")).join("../..");
    let mut targets = Vec::new();
    let kinds = kinds::all();
    let most = named(&kinds, "antichain of 3,432, 28 times");
    let grid = programs::most_rows(most, &Programs::at(&root), &FULL, &mut targets);
    println!("{}\n{}", grid.text(), targets::grid(&targets).text());
}

fn print_reports() {
    let root = Path::new(env!("CARGO_MANIFEST_DIR")).join("../..");
    let mut targets = Vec::new();
    let timed = programs::time_all(&kinds::all(), &Programs::at(&root), &FULL);
    println!("{}", calls::reading(&FULL, &mut targets).text());
    println!("{}", programs::reports(&timed, &mut targets).text());
    println!("{}\n{}", targets::grid(&targets).text(), targets::reasons(&targets));
}

fn print_forecasts() {
    let kinds = kinds::all();
    let mut targets = Vec::new();
    let grid = forecast::forecasts(&kinds, &FULL, &mut targets);
    println!("{}\n{}", grid.text(), targets::grid(&targets).text());
}

fn print_next_sets() {
    let mut targets = Vec::new();
    let grid = next::next_sets(&kinds::all(), &FULL, &mut targets);
    println!("{}\n{}", grid.text(), targets::grid(&targets).text());
}

fn print_living() {
    let kinds = kinds::all();
    let mut targets = Vec::new();
    println!("{}", living::changes(&kinds, &FULL, &mut targets).text());
    println!("{}", living::against_reading(&kinds, &FULL, &mut targets).text());
    println!("{}", living::nothing_held(&kinds, &FULL, &mut targets).text());
    println!("{}\n{}", targets::grid(&targets).text(), targets::reasons(&targets));
}

fn print_marking() {
    let kinds = kinds::all();
    let mut targets = Vec::new();
    let grid = marking::marking(antichain(&kinds), &FULL, &mut targets);
    println!("{}\n{}", grid.text(), targets::grid(&targets).text());
}

fn print_intruders() {
    let mut targets = Vec::new();
    let grid = intruders::scores(&kinds::all(), &FULL, &mut targets);
    println!("{}\n{}", grid.text(), targets::grid(&targets).text());
}

fn print_closing() {
    let mut targets = Vec::new();
    let grid = closing::closures(&kinds::all(), &FULL, &mut targets);
    let reasons = targets::reasons(&targets);
    println!("{}\n{}\n{reasons}", grid.text(), targets::grid(&targets).text());
}

fn print_opens() {
    let mut targets = Vec::new();
    let grid = opens::quick_answers(&kinds::all(), &FULL, &mut targets);
    let reasons = targets::reasons(&targets);
    println!("{}\n{}\n{reasons}", grid.text(), targets::grid(&targets).text());
}

fn print_bags() {
    let mut targets = Vec::new();
    let grid = bags::bag_scores(&kinds::all(), &FULL, &mut targets);
    let reasons = targets::reasons(&targets);
    println!("{}\n{}\n{reasons}", grid.text(), targets::grid(&targets).text());
}

fn print_cuts() {
    let mut targets = Vec::new();
    let grid = cuts::cut_sets(&kinds::all(), &FULL, &mut targets);
    let reasons = targets::reasons(&targets);
    println!("{}\n{}\n{reasons}", grid.text(), targets::grid(&targets).text());
}

fn print_register() {
    let mut targets = Vec::new();
    let grid = register::register(&kinds::all(), &FULL, &mut targets);
    println!("{}\n{}", grid.text(), targets::grid(&targets).text());
}

fn print_handins() {
    let mut targets = Vec::new();
    let grid = handins::lines(&FULL, &mut targets);
    println!("{}\n{}", grid.text(), targets::grid(&targets).text());
}

fn print_pools() {
    let mut targets = Vec::new();
    let grid = pool::pooling(&FULL, &mut targets);
    let reasons = targets::reasons(&targets);
    println!("{}\n{}\n{reasons}", grid.text(), targets::grid(&targets).text());
}
