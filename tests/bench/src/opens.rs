//! The quick yes: the proved call beside the closure with a test of one bit, and beside a twin that
//! takes the same steps.

use crate::closing::successors;
use crate::formed::Whole;
use crate::grid::{nanos, ratio, with_commas, Grid};
use crate::kinds::Kind;
use crate::targets::{at_most, Target};
use crate::timing::in_turn;
use crate::twin::{members, Graph, VERTICES};
use crate::Rounds;
use std::hint::black_box;

/// How many calls are timed together: one is too short for the clock.
const CALLS: usize = 128;

/// A set and a target.
type Question = (u64, usize);

/// The twin: whether the set opens the target, and what is held at the stop, by the steps of
/// `ways::follow_way`.
fn quick(graph: &Graph, set: u64, target: usize) -> (bool, u64) {
    if set >> target & 1 == 1 {
        return (true, set);
    }
    let list = successors(graph);
    let (mut held, mut ready) = (set, 0u64);
    let mut left = members(set).fold(0, |all, f| all | list[f]) & !set;
    loop {
        if left != 0 {
            let v = left.trailing_zeros() as usize;
            left &= left - 1;
            if graph[v].iter().any(|&row| row != 0 && row & !held == 0) {
                ready |= 1 << v;
            }
            continue;
        }
        if ready == 0 {
            return (false, held);
        }
        let v = ready.trailing_zeros() as usize;
        ready &= ready - 1;
        held |= 1 << v;
        if v == target {
            return (true, held);
        }
        left = list[v] & !(held | ready);
    }
}

/// The whole call in Rust: the setup from its words, questions 12, 13 and 14, and then the twin.
fn call(words: &[u64], set: u64, target: usize) -> Result<(bool, u64), u64> {
    let setup = Whole::asked(words).ok_or(12u64)?;
    if target >= setup.count {
        return Err(13);
    }
    let inside = setup.count == VERTICES || set >> setup.count == 0;
    if inside {
        Ok(quick(&setup.graph, set, target))
    } else {
        Err(14)
    }
}

/// The times of one whole call each, on average over the questions: the proved quick yes, the proved
/// closure and a test of the target's bit, and the twin.
fn times(kind: &Kind, questions: &[Question], rounds: usize) -> [f64; 3] {
    let words = &kind.words;
    let calls = CALLS.div_ceil(questions.len());
    let all = |work: &dyn Fn(u64, usize)| {
        for _ in 0..calls {
            questions.iter().for_each(|&(set, target)| work(black_box(set), black_box(target)));
        }
    };
    let timed = in_turn(
        rounds,
        [
            &mut || {
                all(&|set, target| {
                    black_box(portal::opens(black_box(words), target as u64, set));
                })
            },
            &mut || {
                all(&|set, target| {
                    black_box(portal::closure(black_box(words), set).set >> target & 1);
                })
            },
            &mut || {
                all(&|set, target| {
                    black_box(call(black_box(words), set, target)).ok();
                })
            },
        ],
    );
    timed.map(|time| time / (calls * questions.len()) as f64)
}

/// Each item as a target of the initial ones together; then the one to which most steps lead.
fn all_and_last(kind: &Kind) -> (Vec<Question>, Question) {
    let set = kind.setup.chosen(false);
    let all: Vec<Question> = (0..kind.setup.count).map(|target| (set, target)).collect();
    let steps = |&(set, target): &Question| {
        let (yes, held) = quick(&kind.setup.graph, set, target);
        if yes {
            (held & !set).count_ones()
        } else {
            0
        }
    };
    let last = *all.iter().max_by_key(|question| steps(question)).expect("a sheet has an item");
    (all, last)
}

/// A question to which the answer is no: the largest closure that leaves an item shut, among those of
/// all initial items, of all but one, and of none.
fn shut(kind: &Kind) -> Option<Question> {
    let (initial, graph) = (kind.setup.chosen(false), &kind.setup.graph);
    let less = members(initial).map(|v| initial & !(1 << v));
    let sets = std::iter::once(initial).chain(less).chain([0]);
    let questions = sets.flat_map(|set| (0..kind.setup.count).map(move |target| (set, target)));
    let no = questions.filter(|&(set, target)| !quick(graph, set, target).0);
    no.max_by_key(|&(set, target)| quick(graph, set, target).1.count_ones())
}

/// The twin answers as the proved call, and both as the closure.
fn same_answers(kind: &Kind, questions: &[Question]) {
    for &(set, target) in questions {
        let proved = portal::opens(&kind.words, target as u64, set);
        assert_eq!(proved.number, 0, "{}: {set:#x} {target}", kind.name);
        let answer = Ok((proved.opens == 1, proved.set));
        assert_eq!(call(&kind.words, set, target), answer, "{}: {set:#x} {target}", kind.name);
        let closure = portal::closure(&kind.words, set).set;
        assert_eq!(closure >> target & 1, proved.opens, "{}: {set:#x} {target}", kind.name);
    }
}

/// The quick yes on each kind of sheet.
pub fn quick_answers(kinds: &[Kind], rounds: &Rounds, targets: &mut Vec<Target>) -> Grid {
    let header = [
        "sheet",
        "all targets, ns",
        "calls a second",
        "closure and a bit, ns",
        "quick / closure",
        "last target: quick / closure",
        "no: quick / closure",
        "twin, ns",
        "proved / twin",
    ];
    let mut grid = Grid::new("A quick yes", &header);
    grid.note(&format!(
        "`portal_opens` of the initial items, on average over all items as targets; for the target to \
         which most steps lead; and for a no with the largest closure that was found. Beside it \
         `portal_closure` and a test of the target's bit, on the same questions. The twin is the whole \
         call in Rust: all three take the setup from the same words and ask their questions, which is \
         most of the time. {CALLS} calls or more are timed together, in turn.",
    ));
    let mut ratios = [const { Vec::new() }; 4];
    for kind in kinds {
        let (all, last) = all_and_last(kind);
        let no = shut(kind);
        same_answers(kind, &all);
        same_answers(kind, no.as_slice());
        let [whole, closure, twin] = times(kind, &all, rounds.calls);
        let [far, far_closure, ..] = times(kind, &[last], rounds.calls);
        let shut = no.map(|no| times(kind, &[no], rounds.calls));
        let mut row = vec![kind.name.clone(), nanos(whole), with_commas((1.0 / whole) as u64)];
        row.extend([nanos(closure), ratio(whole, closure), ratio(far, far_closure)]);
        row.push(shut.map_or("none".into(), |[time, closure, ..]| ratio(time, closure)));
        row.extend([nanos(twin), ratio(whole, twin)]);
        grid.row(row);
        ratios[0].push((kind.name.clone(), whole / closure));
        ratios[1].push((kind.name.clone(), far / far_closure));
        ratios[2].extend(shut.map(|[time, closure, ..]| (kind.name.clone(), time / closure)));
        ratios[3].push((kind.name.clone(), whole / twin));
    }
    let all = "the quick yes / closure and a bit test, on average over the targets";
    targets.push(at_most(all, 1.0, &ratios[0]));
    targets.push(at_most("the same for the last target", 1.5, &ratios[1]));
    targets.push(at_most("the same for a no", 1.5, &ratios[2]));
    targets.push(at_most("the quick yes, proved / twin", 1.3, &ratios[3]));
    grid
}
