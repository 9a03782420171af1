//! The smallest cut sets of a target: the proved call beside its twin, beside both lists of the same
//! target, and beside the smallest sets that meet every opening set, made from that list by Berge's
//! method.

use crate::grid::{micros, ratio, with_commas, Grid};
use crate::kinds::{Kind, ROOM};
use crate::targets::{at_most, smallest, Target};
use crate::timing::in_turn;
use crate::twin::{self, members};
use crate::{proved, Rounds};
use std::hint::black_box;

/// Lists from this length on are long.
const LONG: usize = 1000;

/// Berge's method: the smallest sets that meet every set so far, set by set. One that misses the next
/// set gains each of its vertices in turn, unless one that meets it already lies within.
fn berge(list: &[u64]) -> Vec<u64> {
    let mut cuts = vec![0u64];
    for &set in list {
        let (mut met, missed): (Vec<u64>, Vec<u64>) = cuts.iter().partition(|&cut| cut & set != 0);
        let kept = met.len();
        for cut in missed {
            for v in members(set) {
                let more = cut | 1 << v;
                if met[..kept].iter().all(|one| one & !more != 0) {
                    met.push(more);
                }
            }
        }
        cuts = met;
    }
    cuts.sort_unstable_by_key(|cut| (cut.count_ones(), *cut));
    cuts
}

/// The times of the proved call, of the twin and of both lists, in turn.
fn times(kind: &Kind, rounds: usize) -> [f64; 3] {
    let (mut one, mut other, mut both) = ([0; ROOM], [0; ROOM], [0; ROOM]);
    in_turn(
        rounds,
        [
            &mut || {
                black_box(proved::cut_sets(black_box(&kind.words), kind.target, &mut one));
            },
            &mut || {
                black_box(twin::cuts(black_box(&kind.setup), kind.target, &mut other));
            },
            &mut || {
                black_box(proved::both_bases(black_box(&kind.words), kind.target, &mut both));
            },
        ],
    )
}

/// Cut sets on each kind of sheet.
pub fn cut_sets(kinds: &[Kind], rounds: &Rounds, targets: &mut Vec<Target>) -> Grid {
    let mut grid = Grid::new(
        "The smallest cut sets",
        &[
            "sheet",
            "opening sets",
            "cut sets",
            "proved, µs",
            "twin, µs",
            "proved / twin",
            "both lists, µs",
            "cut sets / lists",
            "Berge, µs",
            "Berge / proved",
        ],
    );
    grid.note(
        "`portal_cut_sets` for the target with the longest lists, beside its twin and beside `portal_lists` \
         of the same target, called in turn. Berge's method gets the opening list for nothing, and is timed \
         apart.",
    );
    let (mut twins, mut lists, mut long) = (Vec::new(), Vec::new(), Vec::new());
    for kind in kinds {
        let (opening, cuts) = same_answers(kind);
        let [proved, twin, both] = times(kind, rounds.calls);
        let mut by_berge = || {
            black_box(berge(black_box(&opening)));
        };
        let [slow] = in_turn(rounds.marking, [&mut by_berge]);
        grid.row(vec![
            kind.name.clone(),
            with_commas(opening.len() as u64),
            with_commas(cuts as u64),
            micros(proved),
            micros(twin),
            ratio(proved, twin),
            micros(both),
            ratio(proved, both),
            micros(slow),
            ratio(slow, proved),
        ]);
        twins.push((kind.name.clone(), proved / twin));
        lists.push((kind.name.clone(), proved / both));
        if opening.len() >= LONG {
            long.push((kind.name.clone(), slow / proved));
        }
    }
    targets.push(at_most("cut sets, proved / twin", 1.3, &twins));
    targets.push(at_most("cut sets / both lists of the same target", 1.0, &lists));
    let (name, least) = smallest(&long);
    let seen = format!("at least {least:.0} ({name})");
    let what = "cut sets from the opening list by Berge's method / proved";
    let wanted = "at least 10 times, on long lists (1,000 sets or more)";
    targets.push(Target::measured(what, wanted, seen, least >= 10.0));
    grid
}

/// The opening list of the kind's target, and the number of its cut sets, on which all agree.
fn same_answers(kind: &Kind) -> (Vec<u64>, usize) {
    let (mut list, mut one, mut other) = (vec![0; ROOM], vec![0; ROOM], vec![0; ROOM]);
    let (opening, _) = proved::both_bases(&kind.words, kind.target, &mut list);
    let count = proved::cut_sets(&kind.words, kind.target, &mut one);
    let same = twin::cuts(&kind.setup, kind.target, &mut other);
    assert_eq!(one[..count], other[..same], "{}: the twin has other cut sets", kind.name);
    list.truncate(opening);
    assert_eq!(one[..count], berge(&list), "{}: Berge's method has other cut sets", kind.name);
    (list, count)
}
