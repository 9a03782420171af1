//! The next set of an opening list against both lists of the same target, against its twin, and by
//! the place of the last set: first, in the middle, last.

use crate::formed::{Whole, START};
use crate::grid::{micros, ratio, with_commas, Grid};
use crate::kinds::{Kind, ROOM};
use crate::targets::{largest, Target};
use crate::timing::in_turn;
use crate::twin::{family, layer, members, minimal_members, Family, WORDS};
use crate::{proved, Rounds};
use std::hint::black_box;

/// The numbers of masks, which is no mask itself.
const MASKS: usize = WORDS * 64;

/// The lowest member of `size` bits that is `from` or above it; `MASKS` where there is none.
fn first_of_size(family: &Family, size: usize, from: usize) -> usize {
    for b in from / 64..WORDS {
        let low = from.saturating_sub(b * 64);
        let later = if low < 64 { u64::MAX << low } else { 0 };
        let lanes = family[b] & layer(b.count_ones() as usize, size) & later;
        if lanes != 0 {
            return b * 64 + lanes.trailing_zeros() as usize;
        }
    }
    MASKS
}

/// The first member after a mask, fewer bits first and then the smaller mask.
fn next_member(family: &Family, mask: usize) -> usize {
    let mut from = mask + 1;
    for size in mask.count_ones() as usize..15 {
        let found = first_of_size(family, size, from);
        if found < MASKS {
            return found;
        }
        from = 0;
    }
    MASKS
}

/// The twin of the proved call: 1 and the set, 0 for "no more".
fn twin_next(words: &[u64], target: usize, last: u64) -> Result<[u64; 2], u64> {
    let setup = Whole::asked(words).ok_or(12u64)?;
    if target >= setup.count {
        return Err(13);
    }
    let initial = setup.chosen(START);
    if last & !initial != 0 {
        return Err(21);
    }
    let openings = family::<false>(&setup.graph, initial, false, target);
    let base = minimal_members(&openings, initial);
    let bit = |(k, v): (usize, usize)| (last >> v & 1) << k;
    let mask = members(initial).enumerate().map(bit).sum::<u64>() as usize;
    let next = next_member(&base, mask);
    if next == MASKS {
        return Ok([0, 0]);
    }
    let taken = members(initial).enumerate().filter(|(k, _)| next >> k & 1 == 1);
    Ok([1, taken.fold(0, |set, (_, v)| set | 1 << v)])
}

fn proved_next(words: &[u64], target: usize, last: u64) -> [u64; 2] {
    let next = portal::next_opening(words, target as u64, last);
    assert_eq!(next.number, 0, "a next set was refused");
    [next.more, next.set]
}

/// The opening list of the kind's target.
fn opening_list(kind: &Kind) -> Vec<u64> {
    let mut list = vec![0; ROOM];
    let (opening, _) = proved::both_bases(&kind.words, kind.target, &mut list);
    list.truncate(opening);
    list
}

/// The times of one call by the proved code and by the twin, and of both lists.
fn times(kind: &Kind, last: u64, rounds: usize) -> [f64; 3] {
    let mut lists = [0; ROOM];
    in_turn(
        rounds,
        [
            &mut || {
                black_box(proved_next(black_box(&kind.words), kind.target, last));
            },
            &mut || {
                black_box(twin_next(black_box(&kind.words), kind.target, last)).ok();
            },
            &mut || {
                black_box(proved::both_bases(black_box(&kind.words), kind.target, &mut lists));
            },
        ],
    )
}

/// One measured call: the kind of sheet, the length of its list, the last set's place, and the times
/// by the proved code, by the twin, and of both lists.
struct Row<'a> {
    kind: &'a Kind,
    sets: usize,
    place: &'static str,
    proved: f64,
    twin: f64,
    both: f64,
}

impl Row<'_> {
    fn cells(&self) -> Vec<String> {
        vec![
            self.kind.name.clone(),
            with_commas(self.sets as u64),
            self.place.to_string(),
            micros(self.proved),
            micros(self.twin),
            ratio(self.proved, self.twin),
            micros(self.both),
            ratio(self.proved, self.both),
        ]
    }

    fn name(&self) -> String {
        format!("{}, {}", self.kind.name, self.place)
    }
}

/// The next set on each kind of sheet, and along the longest list.
pub fn next_sets(kinds: &[Kind], rounds: &Rounds, targets: &mut Vec<Target>) -> Grid {
    let mut grid = Grid::new(
        "The next set of an opening list",
        &[
            "sheet",
            "opening sets",
            "after",
            "proved, µs",
            "twin, µs",
            "proved / twin",
            "both lists, µs",
            "next / lists",
        ],
    );
    grid.note(
        "`portal_next_opening` for the target with the longest lists, after the empty set, a set in the middle \
         of the list, the last but one, so that the last is shown, and the last one, which is \"no more\". Proved \
         and twin take the setup from the same words and ask question 12; both lists are those of the proved \
         call, called in turn with them.",
    );
    let rows: Vec<Row> = kinds.iter().flat_map(|kind| rows_of(kind, rounds)).collect();
    rows.iter().for_each(|row| grid.row(row.cells()));
    targets.extend(next_targets(&rows));
    grid
}

/// The calls along the list of one kind's target.
fn rows_of<'a>(kind: &'a Kind, rounds: &Rounds) -> Vec<Row<'a>> {
    let list = opening_list(kind);
    same_answers(kind, &list);
    let row = |(place, last)| {
        let [proved, twin, both] = times(kind, last, rounds.calls);
        Row { kind, sets: list.len(), place, proved, twin, both }
    };
    places(&list).into_iter().map(row).collect()
}

/// What was aimed at: against the twin, against both lists, and along the longest list.
fn next_targets(rows: &[Row<'_>]) -> [Target; 3] {
    let twins: Vec<_> = rows.iter().map(|row| (row.name(), row.proved / row.twin)).collect();
    let lists: Vec<_> = rows.iter().map(|row| (row.name(), row.proved / row.both)).collect();
    let told = |name: &str, most: f64| format!("at most {most:.2} ({name})");
    let (name, twin) = largest(&twins);
    let twin_seen = told(name, twin);
    let (name, list) = largest(&lists);
    let list_seen = told(name, list);
    let along = rows.iter().filter(|row| row.kind.name == "antichain of 3,432");
    let along: Vec<f64> = along.map(|row| row.proved).collect();
    let least = along.iter().copied().fold(f64::INFINITY, f64::min);
    let apart = along.iter().copied().fold(0.0, f64::max) / least;
    let code = "the next set, proved / twin";
    let ways = "the next set, first, middle, last and \"no more\" of 3,432";
    let both = "the next set / both lists of the same target";
    [
        Target::measured(code, "at most 1.3 times", twin_seen, twin <= 1.3),
        Target::measured(both, "at most 0.8, on every kind", list_seen, list <= 0.8),
        Target::measured(ways, "within a quarter", format!("{apart:.2} times"), apart <= 1.25),
    ]
}

/// The last sets after which a list is asked.
fn places(list: &[u64]) -> Vec<(&'static str, u64)> {
    let mut places = vec![("the empty set", 0)];
    if let (Some(&middle), Some(&last)) = (list.get(list.len() / 2), list.last()) {
        places.push(("a set in the middle", middle));
        let before = list.len().checked_sub(2).map(|place| list[place]);
        places.extend(before.map(|set| ("the last but one", set)));
        places.push(("the last set", last));
    }
    places
}

/// The twin shows what the proved call shows, and both show the whole list.
fn same_answers(kind: &Kind, list: &[u64]) {
    let mut shown = Vec::new();
    let mut last = 0;
    loop {
        let next = proved_next(&kind.words, kind.target, last);
        assert_eq!(Ok(next), twin_next(&kind.words, kind.target, last), "{}", kind.name);
        let [more, set] = next;
        if more == 0 {
            break;
        }
        shown.push(set);
        last = set;
    }
    assert_eq!(shown, list, "{}", kind.name);
}
