//! The score by kinds of intruder: the proved call beside a twin that makes the same searches, and
//! beside a twin that makes the opening list and takes kinds from it.

use crate::closing::{opened, successors};
use crate::formed::{Whole, START};
use crate::grid::{micros, ratio, Grid};
use crate::kinds::{Kind, ROOM};
use crate::targets::{at_most, smallest, Target};
use crate::timing::in_turn;
use crate::twin::{family, members, minimal_members, write_sets, Graph, VERTICES};
use crate::Rounds;
use std::hint::black_box;

/// Row a, column b: the kind a is at most the kind b.
const AT_MOST: [[bool; 6]; 6] = [
    [true, true, true, true, true, true],
    [false, true, true, false, true, true],
    [false, false, true, false, false, true],
    [false, false, false, true, true, true],
    [false, false, false, false, true, true],
    [false, false, false, false, false, true],
];

/// The order in which the kinds are tried.
const ORDER: [usize; 6] = [4, 1, 3, 0, 5, 2];

/// Of a set of kinds, those that have no other of them below.
fn lowest(able: u64) -> u64 {
    let weaker = |k: usize| members(able).any(|j| j != k && AT_MOST[j][k]);
    members(able).filter(|&k| !weaker(k)).fold(0, |set, k| set | 1 << k)
}

/// The questions 13, 16 and 17 of a setup that question 12 has let pass.
fn questions(setup: &Whole, target: usize, kinds: &[u8]) -> Result<(), u64> {
    if target >= setup.count {
        return Err(13);
    }
    if kinds.len() != setup.count {
        return Err(16);
    }
    if members(setup.chosen(START)).any(|v| kinds[v] > 5) {
        return Err(17);
    }
    Ok(())
}

/// Does the set open the target? Vertices are taken in until it is among them.
fn reaches(graph: &Graph, list: &[u64; 64], set: u64, target: usize) -> bool {
    let mut held = set;
    let mut left = members(set).fold(0, |all, f| all | list[f]) & !set;
    while held >> target & 1 == 0 {
        if left == 0 {
            return false;
        }
        let v = left.trailing_zeros() as usize;
        left &= left - 1;
        if opened(&graph[v], held) {
            held |= 1 << v;
            left = (left | list[v]) & !held;
        }
    }
    true
}

/// The twin of the proved call: a kind above one that gets in is not tried, nor one below one that
/// does not.
fn by_searches(words: &[u64], target: usize, kinds: &[u8]) -> Result<u64, u64> {
    let setup = Whole::asked(words).ok_or(12u64)?;
    questions(&setup, target, kinds)?;
    let initial = setup.chosen(START);
    let list = successors(&setup.graph);
    let (mut able, mut unable) = (0, 0);
    for t in ORDER {
        if members(able).any(|j| AT_MOST[j][t]) || members(unable).any(|j| AT_MOST[t][j]) {
            continue;
        }
        let held = members(initial).filter(|&v| AT_MOST[usize::from(kinds[v])][t]);
        if reaches(&setup.graph, &list, held.fold(0, |set, v| set | 1 << v), target) {
            able |= 1 << t;
        } else {
            unable |= 1 << t;
        }
    }
    Ok(lowest(able))
}

/// The same from the opening list: a set's kind is the larger of each part.
fn by_list(words: &[u64], target: usize, kinds: &[u8], sets: &mut [u64]) -> Result<u64, u64> {
    let setup = Whole::asked(words).ok_or(12u64)?;
    questions(&setup, target, kinds)?;
    let initial = setup.chosen(START);
    let openings = family::<false>(&setup.graph, initial, false, target);
    let count = write_sets(&minimal_members(&openings, initial), initial, sets);
    let kind_of = |set: u64| {
        let larger = |part: fn(u8) -> u8| members(set).map(|v| part(kinds[v])).max().unwrap_or(0);
        3 * larger(|kind| kind / 3) + larger(|kind| kind % 3)
    };
    Ok(lowest(sets[..count].iter().fold(0, |all, &set| all | 1 << kind_of(set))))
}

/// Kinds of all sorts for the items.
fn list_of(kind: &Kind) -> Vec<u8> {
    (0..kind.setup.count).map(|item| ((5 * item + 3) % 6) as u8).collect()
}

fn proved(words: &[u64], target: usize, kinds: &[u8]) -> u64 {
    let score = portal::kinds(words, target as u64, kinds);
    assert_eq!(score.number, 0, "a score by kinds was refused");
    score.kinds
}

/// The times: the proved call and its twin in turn, then the one by the list.
fn times(kind: &Kind, list: &[u8], rounds: usize) -> [f64; 3] {
    let (words, target) = (&kind.words, kind.target);
    let [call, twin] = in_turn(
        rounds,
        [
            &mut || {
                black_box(proved(black_box(words), target, list));
            },
            &mut || {
                black_box(by_searches(black_box(words), target, list)).ok();
            },
        ],
    );
    let mut sets = [0; ROOM];
    let mut listed = || {
        black_box(by_list(black_box(words), target, list, &mut sets)).ok();
    };
    let [slow] = in_turn(rounds, [&mut listed]);
    [call, twin, slow]
}

const HEADS: [&str; 7] = [
    "sheet",
    "score",
    "proved, µs",
    "twin, µs",
    "proved / twin",
    "from the list, µs",
    "list / proved",
];

const NOTE: &str =
    "`portal_kinds` for the target with the longest lists. All three take the setup from the same words \
     and ask 12, 13, 16 and 17. Proved and twin make the same searches and are called in turn; the third makes \
     the opening list by a table and takes kinds from its sets.";

/// The score by kinds on each kind of sheet.
pub fn scores(kinds: &[Kind], rounds: &Rounds, targets: &mut Vec<Target>) -> Grid {
    let mut grid = Grid::new("The score by kinds of intruder", &HEADS);
    grid.note(NOTE);
    let (mut twins, mut lists) = (Vec::new(), Vec::new());
    for kind in kinds {
        let list = list_of(kind);
        same_answers(kind, &list);
        let [call, twin, slow] = times(kind, &list, rounds.calls);
        grid.row(vec![
            kind.name.clone(),
            proved(&kind.words, kind.target, &list).to_string(),
            micros(call),
            micros(twin),
            ratio(call, twin),
            micros(slow),
            ratio(slow, call),
        ]);
        twins.push((kind.name.clone(), call / twin));
        lists.push((kind.name.clone(), slow / call));
    }
    targets.push(at_most("the score by kinds, proved / twin", 1.3, &twins));
    let (name, least) = smallest(&lists);
    let seen = format!("at least {least:.2} ({name})");
    let what = "kinds from the opening list / the score by kinds";
    targets.push(Target::measured(what, "at least 10 times, on every kind", seen, least >= 10.0));
    grid
}

/// All three answer the same, for every vertex.
fn same_answers(kind: &Kind, list: &[u8]) {
    for target in members(u64::MAX >> (VERTICES - kind.setup.count)) {
        let score = proved(&kind.words, target, list);
        assert_eq!(Ok(score), by_searches(&kind.words, target, list), "{}: {target}", kind.name);
    }
    let score = proved(&kind.words, kind.target, list);
    assert_eq!(Ok(score), by_list(&kind.words, kind.target, list, &mut [0; ROOM]), "{}", kind.name);
}
