//! Marks of many handed-in sets, against copying the list to a Vec and sorting it. What is sorted is
//! shuffled before: a sort is a mere pass over a list that rises or falls.

use crate::grid::{micros, ratio, with_commas, Grid};
use crate::kinds::Kind;
use crate::targets::{largest, Target};
use crate::timing::in_turn;
use crate::twin::{self, members, Family};
use crate::{proved, Rounds};
use brute::cases::Rng;
use std::collections::HashSet;
use std::hint::black_box;

const COUNTS: [usize; 4] = [1_000, 10_000, 100_000, 1_000_000];

/// The orders in which the same outsiders are handed in.
const SHUFFLED: &str = "outsiders, shuffled";
const RISING: &str = "outsiders, rising";
const ALL_BUT_LAST: &str = "outsiders, rising but for the last";
const FALLING: &str = "outsiders, falling";

/// A sheet's target with what its marks hang on.
struct Asked<'a> {
    kind: &'a Kind,
    initial: Vec<usize>,
    opening: Family,
    right: Vec<u64>,
}

impl Asked<'_> {
    fn new(kind: &Kind) -> Asked<'_> {
        let chosen = kind.setup.chosen(false);
        let opening = twin::family::<false>(&kind.setup.graph, chosen, false, kind.target);
        let minimal = twin::minimal_members(&opening, chosen);
        let mut right = vec![0; 3432];
        let n = twin::write_sets(&minimal, chosen, &mut right);
        right.truncate(n);
        Asked { kind, initial: members(chosen).collect(), opening, right }
    }

    /// The set that a mask stands for.
    fn set(&self, mask: u64) -> u64 {
        members(mask).fold(0, |set, k| set | 1 << self.initial[k])
    }

    /// Whether a set of initial vertices opens the target.
    fn opens(&self, set: u64) -> bool {
        let place = |v: usize| self.initial.iter().position(|&u| u == v);
        let mask: Option<usize> =
            members(set).try_fold(0, |mask, v| place(v).map(|k| mask | 1 << k));
        mask.is_some_and(|mask| self.opening[mask / 64] >> (mask % 64) & 1 == 1)
    }

    /// The marks by a set of those seen.
    fn marks(&self, handed: &[u64]) -> [u64; 5] {
        let right: HashSet<u64> = self.right.iter().copied().collect();
        let mut seen = HashSet::new();
        let mut marks = [0; 5];
        for &set in handed {
            let place = match () {
                () if !seen.insert(set) => 1,
                () if right.contains(&set) => 0,
                () if self.opens(set) => 3,
                () => 2,
            };
            marks[place] += 1;
        }
        marks[4] = right.len() as u64 - marks[0];
        marks
    }

    /// Lists of n sets, by kinds. Of each order the outsiders are the same.
    fn lists(&self, n: usize) -> Vec<(&'static str, Vec<u64>)> {
        let mut rng = Rng::new(7);
        let right = (0..n).map(|_| *rng.pick(&self.right)).collect();
        let subsets = (0..n).map(|_| self.set(rng.number() >> 50)).collect();
        let shuffled: Vec<u64> = (0..n).map(|_| rng.number()).collect();
        let mut rising = shuffled.clone();
        rising.sort_unstable();
        let mut all_but_last = rising.clone();
        all_but_last.rotate_left(1);
        let falling = rising.iter().rev().copied().collect();
        let two = [u64::MAX - 1, u64::MAX].into_iter().cycle().take(n).collect();
        vec![
            ("right ones", right),
            ("subsets", subsets),
            (SHUFFLED, shuffled),
            (RISING, rising),
            (ALL_BUT_LAST, all_but_last),
            (FALLING, falling),
            ("outsiders, all equal", vec![u64::MAX; n]),
            ("outsiders, two values in turn", two),
        ]
    }

    /// Marking, and sorting the same sets shuffled, in turn.
    fn times(&self, handed: &[u64], rounds: usize) -> [f64; 2] {
        let mut shuffled = handed.to_vec();
        Rng::new(8).shuffle(&mut shuffled);
        in_turn(
            rounds,
            [
                &mut || {
                    let words = black_box(&self.kind.words);
                    black_box(proved::mark_access(words, self.kind.target, handed));
                },
                &mut || {
                    let mut sorted = black_box(&shuffled).to_vec();
                    sorted.sort_unstable();
                    black_box(sorted);
                },
            ],
        )
    }
}

/// Marks against sorting, from a thousand sets to a million.
pub fn marking(kind: &Kind, rounds: &Rounds, targets: &mut Vec<Target>) -> Grid {
    let mut grid = new_grid(&kind.name);
    let asked = Asked::new(kind);
    let names = asked.lists(1).into_iter().map(|(name, _)| name);
    let mut rows: Vec<Vec<String>> = names.map(|name| vec![name.to_string()]).collect();
    let mut ratios = Vec::new();
    for n in COUNTS {
        ratios.clear();
        for ((name, handed), row) in asked.lists(n).into_iter().zip(&mut rows) {
            let marks = proved::mark_access(&kind.words, kind.target, &handed);
            assert_eq!(marks, asked.marks(&handed), "marks of {n} sets: {name}");
            let [marked, sorted] = asked.times(&handed, rounds.marking);
            row.extend([micros(marked), ratio(marked, sorted)]);
            ratios.push((name.to_string(), marked / sorted));
        }
    }
    rows.into_iter().for_each(|row| grid.row(row));
    // What is left are those of a million.
    targets.push(judged(
        "marking a million sets / sorting them",
        "at most 10 times",
        10.0,
        &ratios,
    ));
    let orders = by_order(&ratios);
    targets.push(judged(
        "the same outsiders in order / shuffled",
        "at most 1.5 times",
        1.5,
        &orders,
    ));
    grid
}

/// The ratios of outsiders that are handed in in some order, by that of the same outsiders shuffled. What is
/// sorted beside them is the same each time, so that the machine's own pace does not count.
fn by_order(ratios: &[(String, f64)]) -> Vec<(String, f64)> {
    let of = |name| ratios.iter().find(|(other, _)| other == name).map_or(0.0, |(_, times)| *times);
    let orders = [RISING, ALL_BUT_LAST, FALLING];
    orders.map(|name| (name.to_string(), of(name) / of(SHUFFLED))).to_vec()
}

fn new_grid(sheet: &str) -> Grid {
    let columns =
        COUNTS.map(|n| [format!("{}, µs", with_commas(n as u64)), "/ sorting".to_string()]);
    let columns = columns.iter().flatten().map(String::as_str);
    let header: Vec<&str> = std::iter::once("list of sets").chain(columns).collect();
    let mut grid = Grid::new("Marking handed-in sets", &header);
    grid.note(&format!(
        "`mark_access` on the sheet \"{sheet}\", whose target has a list of 3,432 sets, for lists of a \
         thousand sets to a million; and its time by that of `to_vec` and `sort_unstable` on the same sets \
         shuffled. Marks were compared with a count by a HashSet. The call fills its table first, which \
         is most of the time of short lists. Subsets: any of the initial vertices. Outsiders: any numbers, \
         the same in each order; of the list that rises but for the last, the last is the lowest.",
    ));
    grid
}

fn judged(what: &'static str, bound: &'static str, most: f64, ratios: &[(String, f64)]) -> Target {
    let (name, seen) = largest(ratios);
    Target::measured(what, bound, format!("at most {seen:.2} ({name})"), seen <= most)
}
