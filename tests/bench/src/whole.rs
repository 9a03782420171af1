//! All lists and scores of a sheet, by the twin and by the brute force.

use crate::check::some_targets;
use crate::grid::{millis, ratio, with_commas, Grid};
use crate::kinds::{tables, Kind, ROOM};
use crate::programs::Timed;
use crate::targets::{smallest, Target};
use crate::timing::{median, once};
use crate::twin::{self, Graph, Tables};
use crate::{plain, Rounds};
use std::hint::black_box;

/// How much the twin is to do: all scores with and without recovery, and these lists of all vertices.
#[derive(Clone, Copy, PartialEq)]
pub enum Lists {
    /// None.
    None,
    /// Those with recovery, as the report does.
    WithRecovery,
    /// Those with and those without.
    All,
}

/// All scores of a graph and, where they are wanted, all lists.
fn graph_work(kind: &Kind, graph: &Graph, lists: bool, tables: &mut Tables, out: &mut [u64]) {
    black_box(twin::scores(&kind.setup, graph, tables));
    if lists {
        twin::lists(&kind.setup, tables, out, |_, _, list| {
            black_box(list);
        });
    }
}

/// The twin's time.
pub fn twin_time(kind: &Kind, lists: Lists, rounds: usize) -> f64 {
    let mut tables = tables();
    let mut out = vec![0; ROOM];
    let mut work = || {
        let less = black_box(&kind.setup).without_recovery();
        graph_work(kind, &less, lists == Lists::All, &mut tables, &mut out);
        graph_work(kind, &kind.setup.graph, lists != Lists::None, &mut tables, &mut out);
    };
    work();
    median((0..rounds).map(|_| once(&mut work)).collect())
}

/// The brute force's times for all lists and scores with and without recovery: with a closure for
/// each subset and target, and with closures that serve all targets.
fn brute_times(kind: &Kind) -> [f64; 2] {
    let few = some_targets(kind);
    let mut closing = 0.0;
    let mut listing = 0.0;
    for (graph, loss) in plain::four_ways(&kind.setup) {
        let mut closed = Vec::new();
        closing += once(|| closed = plain::closures(&kind.setup, &graph, loss));
        listing += once(|| {
            for target in few {
                let list = plain::list(black_box(&closed), target);
                black_box(plain::score(&kind.setup, loss, &list));
            }
        });
    }
    let count = kind.setup.count as f64;
    let listing = listing * count / few.len() as f64;
    [closing * count + listing, closing + listing]
}

/// The times of the twin with all lists and with none, and both of the brute force, taken in turn.
fn times_in_turn(kind: &Kind, rounds: &Rounds) -> [f64; 4] {
    let mut times: [Vec<f64>; 4] = Default::default();
    for _ in 0..rounds.brute {
        let [brute, shared] = brute_times(kind);
        let [all, none] =
            [Lists::All, Lists::None].map(|lists| twin_time(kind, lists, TWINS_A_ROUND));
        times.iter_mut().zip([all, none, brute, shared]).for_each(|(list, time)| list.push(time));
    }
    times.map(median)
}

/// How often the twin is timed while the brute force is timed once.
const TWINS_A_ROUND: usize = 9;

/// All lists and scores of all vertices, with and without recovery.
pub fn all_lists(
    kinds: &[Kind],
    programs: &[Timed],
    rounds: &Rounds,
    targets: &mut Vec<Target>,
) -> Grid {
    let mut grid = new_grid();
    let mut twins = Vec::new();
    let mut proved = Vec::new();
    for (kind, program) in kinds.iter().zip(programs) {
        let [same, scores, brute, shared] = times_in_turn(kind, rounds);
        grid.row(vec![
            kind.name.clone(),
            millis(same),
            millis(scores),
            millis(brute),
            ratio(brute, same),
            millis(program.both_graphs()),
            ratio(brute, program.both_graphs()),
            millis(shared),
            ratio(shared, same),
        ]);
        twins.push((kind.name.clone(), brute / same));
        if !program.is_long() {
            proved.push((kind.name.clone(), brute / program.both_graphs()));
        }
    }
    targets.push(judged("all lists and scores of a sheet, brute force / twin", &twins).because(
        "Where many vertices have long lists, making these is most of the twin's time (compare the \
         column without lists): 360,360 sets where 28 vertices have the longest ones. Where a chain \
         goes with vertex order, each closure of the brute force takes two passes, as few as can be, \
         and the minimal members of 64 vertices are most of the twin's time. The worst sheet was \
         searched for where the twin has most to do.",
    ));
    let what = "the same, brute force / proved program, rows below 1 MB";
    targets.push(judged(what, &proved).because(
        "The program's time has also the reading of fields and the printing of rows, with recovery and \
         without, which is most of it where lists are long.",
    ));
    grid
}

fn new_grid() -> Grid {
    let mut grid = Grid::new(
        "All lists and scores of all vertices, with and without recovery",
        &[
            "sheet",
            "twin, ms",
            "without lists, ms",
            "brute force, ms",
            "brute / twin",
            "proved, ms",
            "brute / proved",
            "shared closures, ms",
            "shared / twin",
        ],
    );
    grid.note(
        "Twin: all scores and lists; without lists: the four tables and the scores. Brute force: a \
         closure for each subset and target, extrapolated: closures are timed for one target, lists and \
         scores for 3. Twin and brute force are timed in turn. Shared closures: one closure for each subset serves all \
         targets. Proved: no call gives all lists at once, so this is what the program `report` takes, \
         less a program that starts and reads the sheet; and, as it has no lists without recovery, its \
         time on the sheet without recovery, less that with credentials only, is added. So there \
         is more in it than in the others: reading fields, and printing all these lists.",
    );
    grid
}

fn judged(what: &'static str, ratios: &[(String, f64)]) -> Target {
    let (name, least) = smallest(ratios);
    let seen = format!("at least {} ({name})", with_commas(least as u64));
    Target::measured(what, "at least 2,000 times, on every kind", seen, least >= 2000.0)
}
