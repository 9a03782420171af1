//! The plain brute force: a closure for each subset, by passes over all vertices until nothing is
//! new, and then the sets that have no smaller one beside them.

use crate::twin::{members, Graph, Rows, Setup};

/// A subset and what it opens or, with loss, loses.
pub type Closed = (u64, u64);

fn opened(rows: &Rows, held: u64) -> bool {
    rows.iter().any(|&row| row != 0 && row & !held == 0)
}

fn lost(rows: &Rows, held: u64) -> bool {
    rows.iter().any(|&row| row != 0) && rows.iter().all(|&row| row == 0 || row & held != 0)
}

/// Everything derivable from a set.
fn closure(graph: &Graph, count: usize, loss: bool, given: u64) -> u64 {
    let admits = if loss { lost } else { opened };
    let mut held = given;
    loop {
        let before = held;
        for (v, rows) in graph[..count].iter().enumerate() {
            if held >> v & 1 == 0 && admits(rows, held) {
                held |= 1 << v;
            }
        }
        if held == before {
            return held;
        }
    }
}

/// The closure of each subset of the chosen vertices.
pub fn closures(setup: &Setup, graph: &Graph, loss: bool) -> Vec<Closed> {
    let chosen = setup.chosen(loss);
    let mut subset = 0;
    let mut closed = Vec::new();
    loop {
        closed.push((subset, closure(graph, setup.count, loss, subset)));
        subset = subset.wrapping_sub(chosen) & chosen;
        if subset == 0 {
            return closed;
        }
    }
}

/// The target's list: fewer vertices first, then the smaller set number.
pub fn list(closed: &[Closed], target: usize) -> Vec<u64> {
    let reaching = closed.iter().filter(|(_, reached)| reached >> target & 1 == 1);
    let mut sets: Vec<u64> = reaching.map(|(set, _)| *set).collect();
    sets.sort_unstable_by_key(|set| (set.count_ones(), *set));
    let mut least: Vec<u64> = Vec::new();
    for set in sets {
        if !least.iter().any(|smaller| smaller & !set == 0) {
            least.push(set);
        }
    }
    least
}

/// The least sum of values over a list.
pub fn score(setup: &Setup, loss: bool, list: &[u64]) -> Option<u64> {
    list.iter().map(|&set| members(set).map(|v| setup.value(loss, v)).sum()).min()
}

/// The four ways of a sheet: the graph with and without recovery, openings and lockouts.
pub fn four_ways(setup: &Setup) -> [(Graph, bool); 4] {
    let less = setup.without_recovery();
    [(setup.graph, false), (setup.graph, true), (less, false), (less, true)]
}
