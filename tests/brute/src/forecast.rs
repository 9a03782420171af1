//! The forecast for an opening list on a well-formed setup (02, point 10): for a target, count the
//! starting items that are the target or reach it along edges, colours disregarded; call it s.
//! Forecast the number of ways to choose s/2, rounded down, of s items. No question is asked here.

use crate::setup::{holds, single, Setup};

/// The edges as pairs of items, from and to, whatever their colours and whether recovery or not.
fn edges(setup: &Setup) -> Vec<(usize, usize)> {
    let count = setup.count as usize;
    let every = (0..count).flat_map(|from| (0..count).map(move |to| (from, to)));
    every.filter(|&(from, to)| setup.places[to].rows.iter().any(|&row| holds(row, from))).collect()
}

/// The items that are the target or reach it: passes over all edges until one adds nothing.
fn reaching(setup: &Setup, target: usize) -> u64 {
    let edges = edges(setup);
    let mut set = single(target);
    loop {
        let before = set;
        for &(from, to) in &edges {
            if holds(set, to) {
                set |= single(from);
            }
        }
        if set == before {
            return set;
        }
    }
}

/// The starting items that are counted.
pub fn counted(setup: &Setup, target: usize) -> u64 {
    let set = reaching(setup, target);
    let starting = setup.starting().into_iter().map(|(item, _)| item);
    starting.filter(|&item| holds(set, item)).fold(0, |counted, item| counted | single(item))
}

/// The number of ways to choose k of n items: n (n - 1) .. (n - k + 1) over k (k - 1) .. 1.
pub fn ways(n: u64, k: u64) -> u64 {
    (0..k).fold(1, |ways, chosen| ways * (n - chosen) / (chosen + 1))
}

/// The forecast.
pub fn forecast(setup: &Setup, target: usize) -> u64 {
    let s = u64::from(counted(setup, target).count_ones());
    ways(s, s / 2)
}
