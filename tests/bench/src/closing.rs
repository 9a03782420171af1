//! What a set opens, with the number of passes: the proved call beside a twin that counts the same
//! way, and a loop that takes vertices in place and counts nothing.

use crate::formed::Whole;
use crate::grid::{nanos, ratio, Grid};
use crate::kinds::Kind;
use crate::targets::{at_most, Target};
use crate::timing::in_turn;
use crate::twin::{members, Graph, Rows, VERTICES};
use crate::Rounds;
use std::hint::black_box;

/// How many calls are timed together: one is too short for the clock.
const CALLS: usize = 200;

/// The kind on which the loop in place is at its best: two turns, whatever the chain's length.
const IN_ORDER: &str = "chain with vertex order";

/// Has a vertex with these rows a complete colour?
pub fn opened(rows: &Rows, held: u64) -> bool {
    rows.iter().any(|&row| row != 0 && row & !held == 0)
}

/// For each vertex the vertices that need it.
pub fn successors(graph: &Graph) -> [u64; 64] {
    let mut list = [0; 64];
    for (v, rows) in graph.iter().enumerate() {
        let needed = rows.iter().fold(0, |all, row| all | row);
        members(needed).for_each(|f| list[f] |= 1 << v);
    }
    list
}

/// The twin: the closure and its number of passes, by the steps of `closures::closure`.
pub fn closure(graph: &Graph, set: u64) -> (u64, usize) {
    let list = successors(graph);
    let gained = |held: u64, grown: u64| members(grown & !held).fold(0, |all, f| all | list[f]);
    let (mut held, mut grown, mut passes) = (set, set, 0);
    let mut left = gained(0, set) & !set;
    loop {
        if left == 0 {
            passes += 1;
            if grown == held {
                return (held, passes);
            }
            left = gained(held, grown) & !grown;
            held = grown;
            continue;
        }
        let v = left.trailing_zeros() as usize;
        left &= left - 1;
        if opened(&graph[v], held) {
            grown |= 1 << v;
        }
    }
}

/// The closure by turns over all vertices, where what is taken in helps the next vertex at once.
fn in_place(graph: &Graph, set: u64) -> u64 {
    let mut held = set;
    loop {
        let before = held;
        for (v, rows) in graph.iter().enumerate() {
            if opened(rows, held) {
                held |= 1 << v;
            }
        }
        if held == before {
            return held;
        }
    }
}

/// The work, `CALLS` times.
fn many(work: impl Fn()) -> impl FnMut() {
    move || (0..CALLS).for_each(|_| work())
}

/// A whole call in Rust: the setup from its words, questions 12 and 14, and then the work.
fn call<R>(words: &[u64], set: u64, work: impl Fn(&Graph, u64) -> R) -> Result<R, u64> {
    let setup = Whole::asked(words).ok_or(12u64)?;
    let inside = setup.count == VERTICES || set >> setup.count == 0;
    if inside {
        Ok(work(&setup.graph, set))
    } else {
        Err(14)
    }
}

/// The times of one call each: the proved closure, the twin, and the call with the loop in place.
fn times(kind: &Kind, set: u64, rounds: usize) -> [f64; 3] {
    let words = &kind.words;
    let timed = in_turn(
        rounds,
        [
            &mut many(|| {
                black_box(portal::closure(black_box(words), black_box(set)));
            }),
            &mut many(|| {
                black_box(call(black_box(words), black_box(set), closure)).ok();
            }),
            &mut many(|| {
                black_box(call(black_box(words), black_box(set), in_place)).ok();
            }),
        ],
    );
    timed.map(|time| time / CALLS as f64)
}

/// The closure of the initial vertices on each kind of sheet.
pub fn closures(kinds: &[Kind], rounds: &Rounds, targets: &mut Vec<Target>) -> Grid {
    let header = [
        "sheet",
        "passes",
        "proved, ns",
        "twin, ns",
        "proved / twin",
        "in place, ns",
        "proved / in place",
    ];
    let mut grid = Grid::new("What a set opens, with the number of passes", &header);
    grid.note(&format!(
        "`portal_closure` of the initial vertices. Proved and twin take the setup from the same words \
         and ask questions 12 and 14, which is most of the time; the twin counts the same passes, and \
         looks at the same vertices. In place is the same call in Rust with the base's loop, which \
         counts nothing. {CALLS} calls are timed together, in turn.",
    ));
    let mut ratios = [Vec::new(), Vec::new(), Vec::new()];
    for kind in kinds {
        let set = kind.setup.chosen(false);
        let proved = portal::closure(&kind.words, set);
        assert_eq!(call(&kind.words, set, in_place), Ok(proved.set), "{}: another set", kind.name);
        let counted = Ok((proved.set, proved.passes as usize));
        assert_eq!(call(&kind.words, set, closure), counted, "{}: another closure", kind.name);
        let [whole, twin, turns] = times(kind, set, rounds.calls);
        grid.row(vec![
            kind.name.clone(),
            proved.passes.to_string(),
            nanos(whole),
            nanos(twin),
            ratio(whole, twin),
            nanos(turns),
            ratio(whole, turns),
        ]);
        ratios[0].push((kind.name.clone(), whole / twin));
        let other = if kind.name == IN_ORDER { 1 } else { 2 };
        ratios[other].push((kind.name.clone(), whole / turns));
    }
    targets.push(at_most("closure with passes, proved / twin", 1.3, &ratios[0]));
    let before =
        "closure with passes, proved / the same call with a loop in place, in vertex order";
    targets.push(at_most(before, 3.0, &ratios[1]));
    targets.push(at_most("the same on the other kinds", 1.0, &ratios[2]));
    grid
}
