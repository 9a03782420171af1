//! One call at a time: both lists of a target, and the reading of the longest sheet.

use crate::grid::{micros, millis, ratio, with_commas, Grid};
use crate::kinds::{longest_sheet, random, Kind, CHOSEN, EDGES, ROOM};
use crate::targets::{against_twin, Target};
use crate::timing::{in_turn, median, once};
use crate::twin::{self, Setup};
use crate::{plain, proved, Rounds};
use std::hint::black_box;

/// The times of both lists of a target: by the proved call, the twin and the lean twin.
fn both_lists(kind: &Kind, rounds: usize) -> [f64; 3] {
    let mut lists = [const { [0; ROOM] }; 3];
    let [proved, same, lean] = &mut lists;
    in_turn(
        rounds,
        [
            &mut || {
                black_box(proved::both_bases(black_box(&kind.words), kind.target, proved));
            },
            &mut || {
                let setup = Setup::from_words(black_box(&kind.words));
                black_box(twin::both_bases::<false>(&setup, kind.target, same));
            },
            &mut || {
                let setup = Setup::from_words(black_box(&kind.words));
                black_box(twin::both_bases::<true>(&setup, kind.target, lean));
            },
        ],
    )
}

/// The brute force's time for the same two lists.
fn brute_lists(kind: &Kind) -> f64 {
    let work = || {
        for loss in [false, true] {
            let closed = plain::closures(&kind.setup, &kind.setup.graph, loss);
            black_box(plain::list(&closed, kind.target));
        }
    };
    median((0..3).map(|_| once(work)).collect())
}

/// Question 12 alone, with the setup taken from its words.
fn question(kind: &Kind, rounds: usize) -> f64 {
    let ask = || once(|| assert_eq!(black_box(portal::check(black_box(&kind.words))), 0));
    median((0..rounds).map(|_| ask()).collect())
}

/// One target's both lists on each kind of sheet.
pub fn one_target(kinds: &[Kind], rounds: &Rounds, targets: &mut Vec<Target>) -> Grid {
    let mut grid = Grid::new(
        "Both lists of one target",
        &[
            "sheet",
            "edges",
            "sets",
            "proved, µs",
            "twin, µs",
            "proved / twin",
            "lean twin, µs",
            "proved / lean",
            "brute force, ms",
            "brute / proved",
        ],
    );
    grid.note(&format!(
        "`both_bases` for the target with the longest lists. Proved, twin and lean twin take the setup \
         from the same words, clear their tables of 128 KB in each call, and are called in turn. Only \
         the proved call asks question 12, {} µs of its time. Brute force: the median of 3 runs.",
        micros(question(&kinds[0], rounds.calls)),
    ));
    let mut ratios = [Vec::new(), Vec::new()];
    for kind in kinds {
        let [proved, same, lean] = both_lists(kind, rounds.calls);
        let brute = brute_lists(kind);
        let (opening, lockout) = twin::both_bases::<true>(&kind.setup, kind.target, &mut [0; ROOM]);
        grid.row(vec![
            kind.name.clone(),
            kind.edges().to_string(),
            with_commas((opening + lockout) as u64),
            micros(proved),
            micros(same),
            ratio(proved, same),
            micros(lean),
            ratio(proved, lean),
            millis(brute),
            ratio(brute, proved),
        ]);
        ratios[0].push((kind.name.clone(), proved / same));
        ratios[1].push((kind.name.clone(), proved / lean));
    }
    targets.push(against_twin("both lists of one target, proved / twin", &ratios[0]).because(
        "The steps are the same, so it is what the compilers make of them, question 12, and the \
         copying of the setup.",
    ));
    let lean = against_twin("the same, proved / lean twin (not asked for)", &ratios[1]);
    targets.push(lean.because(
        "The lean twin's shortcut makes the difference: compare the twin, which takes the proved \
         code's steps.",
    ));
    grid
}

/// The reading of the longest accepted sheet against one list call.
pub fn reading(rounds: &Rounds, targets: &mut Vec<Target>) -> Grid {
    let kind = longest_sheet();
    let mut words = [0; portal::WORDS];
    let mut out = vec![0; ROOM];
    let [read, listed, scored] = in_turn(
        rounds.calls,
        [
            &mut || {
                black_box(portal::read(black_box(&kind.sheet), &mut words));
            },
            &mut || {
                black_box(proved::both_bases(black_box(&kind.words), kind.target, &mut out));
            },
            &mut || {
                black_box(portal::score(black_box(&kind.sheet), kind.target as u64));
            },
        ],
    );
    let mut grid = Grid::new(
        "Reading the longest accepted sheet",
        &["sheet", "bytes", "reading, µs", "both lists, µs", "reading / lists", "portal_score, µs"],
    );
    grid.note(
        "Reading also writes the setup's words. Both lists are those of the target with the longest \
         ones. `portal_score` reads the sheet and works out one score.",
    );
    let bytes = with_commas(kind.sheet.len() as u64);
    let times = ratio(read, listed);
    grid.row(vec![kind.name, bytes, micros(read), micros(listed), times.clone(), micros(scored)]);
    let what = "reading the longest accepted sheet";
    let seen = format!("{times} times a list call");
    targets.push(Target::measured(what, "less than one list call", seen, read < listed));
    grid
}

/// The numbers of initial vertices that a chart shows.
pub const STARTS: [usize; 7] = [2, 4, 6, 8, 10, 12, 14];
/// The numbers of edges that a chart shows.
pub const EDGE_STEPS: [usize; 8] = [32, 64, 96, 128, 160, 192, 224, 256];
/// How many sheets make one point.
const SHEETS: u64 = 5;

/// Times of one target's both lists, proved and by the twin: means of medians over random sheets.
fn points(chosen: usize, edges: usize, rounds: usize) -> [f64; 2] {
    let mut sums = [0.0; 2];
    for seed in 0..SHEETS {
        let kind = Kind::new("a random sheet", random(100 + seed, chosen, edges).text());
        let [proved, same, _] = both_lists(&kind, rounds);
        let times = [proved, same];
        sums.iter_mut().zip(times).for_each(|(sum, time)| *sum += time);
    }
    sums.map(|sum| sum / SHEETS as f64)
}

/// The two lines of a chart: numbers with times in seconds.
pub type Series = Vec<(usize, [f64; 2])>;

/// Times against the number of initial vertices, which is that of losable ones too.
pub fn by_starts(rounds: &Rounds) -> Series {
    STARTS.iter().map(|&chosen| (chosen, points(chosen, EDGES, rounds.points))).collect()
}

/// Times against the number of edges.
pub fn by_edges(rounds: &Rounds) -> Series {
    EDGE_STEPS.iter().map(|&edges| (edges, points(CHOSEN, edges, rounds.points))).collect()
}

/// A chart's numbers as a table.
pub fn series_grid(title: &str, number: &str, series: &Series) -> Grid {
    let mut grid = Grid::new(title, &[number, "proved, µs", "twin, µs", "proved / twin"]);
    for (at, [proved, same]) in series {
        grid.row(vec![at.to_string(), micros(*proved), micros(*same), ratio(*proved, *same)]);
    }
    grid
}
