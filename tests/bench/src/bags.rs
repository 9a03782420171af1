//! Bag scores: the proved call beside its twin, beside both lists of the same target, and beside
//! sorted vectors of which all pairs are compared.

use crate::grid::{micros, ratio, with_commas, Grid};
use crate::kinds::{Kind, CHOSEN, ROOM};
use crate::targets::{at_most, largest, smallest, Target};
use crate::timing::in_turn;
use crate::twin::{self, members, Setup, Sums, VERTICES};
use crate::{proved, Rounds};
use portal::BLANK;
use std::hint::black_box;

/// Lists from this length on are long.
const LONG: usize = 1000;

/// The most sets of a list, and the places of a bag.
const SETS: usize = 3432;
const PLACES: usize = 14;

/// The set of the first 14 vertices, over which each mask is its own set.
const MASKS: u64 = 0x3FFF;

/// The free bits of a key's seven lanes.
const GUARDS: u64 = 0x0080_8080_8080_8080;

/// Both lent lists of a call.
struct Lent {
    values: Vec<u64>,
    lengths: Vec<u64>,
}

impl Lent {
    fn new() -> Lent {
        Lent { values: vec![0; PLACES * SETS], lengths: vec![0; SETS] }
    }
}

/// For each vertex, its value's marks at seven thresholds.
fn columns(values: &[u64; VERTICES], thresholds: &[u64]) -> [u64; VERTICES] {
    values.map(|value| {
        thresholds.iter().rev().fold(0, |key, &low| key * 256 + u64::from(low <= value))
    })
}

fn at_most_key(a: u64, b: u64) -> bool {
    ((b + GUARDS) - a) & GUARDS == GUARDS
}

/// The twin: the same keys, the same running list.
fn twin_score(setup: &Setup, target: usize, lent: &mut Lent) -> usize {
    let chosen = setup.chosen(false);
    let values: [u64; VERTICES] = std::array::from_fn(|v| match setup.value(false, v) {
        BLANK => 0,
        value => value,
    });
    let mut kept = [0; SETS];
    let family = twin::family::<false>(&setup.graph, chosen, false, target);
    let count = twin::write_sets(&twin::minimal_members(&family, chosen), MASKS, &mut kept);
    let mut thresholds = [0; CHOSEN];
    members(chosen).zip(&mut thresholds).for_each(|(v, place)| *place = values[v]);
    let keys = |thresholds: &[u64]| {
        let columns = columns(&values, thresholds);
        Sums::new(chosen, |v| columns[v])
    };
    let (first, second) = (keys(&thresholds[..7]), keys(&thresholds[7..]));
    let (mut low, mut high) = ([0; SETS], [0; SETS]);
    let mut many = 0;
    for i in 0..count {
        let mask = kept[i];
        let (a, b) = (first.of(mask), second.of(mask));
        let keys = low[..many].iter().zip(&high[..many]);
        if keys.into_iter().any(|(&c, &d)| at_most_key(c, a) && at_most_key(d, b)) {
            continue;
        }
        let mut left = 0;
        for i in 0..many {
            let (c, d) = (low[i], high[i]);
            (kept[left], low[left], high[left]) = (kept[i], c, d);
            left += usize::from(!(at_most_key(a, c) && at_most_key(b, d)));
        }
        (kept[left], low[left], high[left]) = (mask, a, b);
        many = left + 1;
    }
    kept[..many].iter_mut().for_each(|mask| *mask = twin::set_of(chosen, *mask));
    for (number, &set) in kept[..many].iter().enumerate() {
        let row = &mut lent.values[PLACES * number..PLACES * (number + 1)];
        row.fill(0);
        for v in members(set) {
            let mut moving = values[v];
            for place in row.iter_mut() {
                let value = *place;
                *place = value.max(moving);
                moving = value.min(moving);
            }
        }
        lent.lengths[number] = u64::from(set.count_ones());
    }
    many
}

/// The bags as sorted vectors, and every pair of different ones compared.
fn all_pairs(setup: &Setup, list: &[u64]) -> Vec<Vec<u64>> {
    let mut bags: Vec<Vec<u64>> = Vec::new();
    for &set in list {
        let mut bag: Vec<u64> = members(set).map(|v| setup.value(false, v)).collect();
        bag.sort_unstable_by(|a, b| b.cmp(a));
        bags.push(bag);
    }
    let below = |one: &Vec<u64>, other: &Vec<u64>| {
        one.len() <= other.len() && one.iter().zip(other).all(|(a, b)| a <= b)
    };
    let first = |at: usize, bag: &Vec<u64>| {
        !bags
            .iter()
            .enumerate()
            .any(|(i, other)| below(other, bag) && if other == bag { i < at } else { true })
    };
    bags.iter()
        .enumerate()
        .filter(|&(at, bag)| first(at, bag))
        .map(|(_, bag)| bag.clone())
        .collect()
}

/// The times of the proved call, of the twin and of both lists, in turn.
fn times(kind: &Kind, rounds: usize) -> [f64; 3] {
    let (mut one, mut other, mut both) = (Lent::new(), Lent::new(), [0; ROOM]);
    in_turn(
        rounds,
        [
            &mut || {
                let lent = (&mut one.values[..], &mut one.lengths[..]);
                black_box(proved::bag_score(black_box(&kind.words), kind.target, lent));
            },
            &mut || {
                black_box(twin_score(black_box(&kind.setup), kind.target, &mut other));
            },
            &mut || {
                black_box(proved::both_bases(black_box(&kind.words), kind.target, &mut both));
            },
        ],
    )
}

/// The kind with other start values: the initial vertex number n gets the n-th.
fn revalued(kind: &Kind, name: &str, value: impl Fn(u64) -> u64) -> Kind {
    let mut words = kind.words.clone();
    for (n, v) in members(kind.setup.chosen(false)).enumerate() {
        words[1 + 4 * v + 1] = value(n as u64);
    }
    Kind::of_words(name, words)
}

/// Bag scores on each kind of sheet, and on the worst that were found.
pub fn bag_scores(kinds: &[Kind], rounds: &Rounds, targets: &mut Vec<Target>) -> Grid {
    let mut grid = Grid::new(
        "Bag scores",
        &[
            "sheet",
            "opening sets",
            "bags",
            "proved, µs",
            "twin, µs",
            "proved / twin",
            "both lists, µs",
            "bags / lists",
            "all pairs, µs",
            "all pairs / proved",
        ],
    );
    grid.note(
        "`portal_bag_score` for the target with the longest lists, beside its twin and beside `portal_lists` \
         of the same target, called in turn. Sorted vectors, of which all pairs are compared, get the opening \
         list for nothing, and are timed apart. The last rows are the antichain again, with values that rise \
         and fall with the item number: where they fall, each set of the list has a lower bag than many before it.",
    );
    let antichain = kinds
        .iter()
        .find(|kind| kind.name.starts_with("antichain of 3,432"))
        .expect("an antichain");
    let hard = [
        revalued(antichain, "antichain, rising values", |n| 10 + n),
        revalued(antichain, "antichain, falling values", |n| 100 - n),
        revalued(antichain, "antichain, values turned by 5", |n| n * 5 % 14),
    ];
    let (mut twins, mut lists, mut long, mut worst) =
        (Vec::new(), Vec::new(), Vec::new(), Vec::new());
    for (place, kind) in kinds.iter().chain(&hard).enumerate() {
        let (opening, bags) = same_answers(kind);
        let [proved, twin, both] = times(kind, rounds.calls);
        let mut by_pairs = || {
            black_box(all_pairs(&kind.setup, black_box(&opening)));
        };
        let [slow] = in_turn(rounds.marking, [&mut by_pairs]);
        grid.row(vec![
            kind.name.clone(),
            with_commas(opening.len() as u64),
            with_commas(bags as u64),
            micros(proved),
            micros(twin),
            ratio(proved, twin),
            micros(both),
            ratio(proved, both),
            micros(slow),
            ratio(slow, proved),
        ]);
        twins.push((kind.name.clone(), proved / twin));
        worst.push((kind.name.clone(), proved));
        if place < kinds.len() {
            lists.push((kind.name.clone(), proved / both));
        }
        if opening.len() >= LONG {
            long.push((kind.name.clone(), slow / proved));
        }
    }
    targets.push(at_most("bag scores, proved / twin", 1.3, &twins));
    targets.push(at_most("bag score / both lists of the same target", 2.0, &lists));
    let (name, least) = smallest(&long);
    let seen = format!("at least {least:.0} ({name})");
    let what = "bag scores by sorted vectors and all pairs / proved";
    let wanted = "at least 5 times, on long lists (1,000 sets or more)";
    targets.push(Target::measured(what, wanted, seen, least >= 5.0));
    let (name, most) = largest(&worst);
    grid.note(&format!("The longest time is that of the sheet \"{name}\", {} µs.", micros(most)));
    grid
}

/// The opening list of the kind's target, and the number of its bags, on which all agree.
fn same_answers(kind: &Kind) -> (Vec<u64>, usize) {
    let (mut list, mut one, mut other) = (vec![0; ROOM], Lent::new(), Lent::new());
    let (opening, _) = proved::both_bases(&kind.words, kind.target, &mut list);
    let lent = (&mut one.values[..], &mut one.lengths[..]);
    let count = proved::bag_score(&kind.words, kind.target, lent);
    let same = twin_score(&kind.setup, kind.target, &mut other);
    assert_eq!(
        one.values[..PLACES * count],
        other.values[..PLACES * same],
        "{}: the twin has other bags",
        kind.name
    );
    assert_eq!(
        one.lengths[..count],
        other.lengths[..same],
        "{}: the twin has other lengths",
        kind.name
    );
    list.truncate(opening);
    let bags: Vec<Vec<u64>> = (0..count)
        .map(|number| one.values[PLACES * number..][..one.lengths[number] as usize].to_vec())
        .collect();
    assert_eq!(bags, all_pairs(&kind.setup, &list), "{}: all pairs have other bags", kind.name);
    (list, count)
}
