//! The forecast for an opening list, against answers worked out by hand, against other ways to say
//! it, and against the lists themselves.

use crate::{accepted, calls};
use brute::cases::forecasts::forecasts;
use brute::cases::random::random_sheets;
use brute::cases::tiny::{all_marked, all_unmarked};
use brute::forecast::{counted, forecast, ways};
use brute::setup::{holds, within};
use brute::{Calls, Setup};

#[test]
fn answers_worked_out_by_hand() {
    for case in forecasts() {
        let calls = calls(&case.case.sheet);
        assert_eq!(calls.forecast(case.target), Ok(case.forecast), "{}", case.case.label);
        assert_eq!(calls.forecast(calls.setup().count), Err(13), "{}", case.case.label);
    }
}

#[test]
fn ways_to_choose_by_pascals_rule() {
    let mut row = vec![1];
    for n in 0..=20 {
        for k in 0..=n {
            assert_eq!(ways(n, k), row[k as usize], "{k} of {n}");
        }
        let next = row.windows(2).map(|pair| pair[0] + pair[1]);
        row = std::iter::once(1).chain(next).chain(std::iter::once(1)).collect();
    }
    assert_eq!((ways(0, 0), ways(14, 7)), (1, 3432));
}

/// Whether there is a path from each item to each, by taking the items one by one as ways between.
fn paths(setup: &Setup) -> Vec<Vec<bool>> {
    let items = 0..setup.count as usize;
    let edge = |from: usize, to: usize| setup.places[to].rows.iter().any(|&row| holds(row, from));
    let mut paths: Vec<Vec<bool>> = items
        .clone()
        .map(|from| items.clone().map(|to| from == to || edge(from, to)).collect())
        .collect();
    for between in items.clone() {
        for from in items.clone() {
            for to in items.clone() {
                paths[from][to] |= paths[from][between] && paths[between][to];
            }
        }
    }
    paths
}

#[test]
fn counted_items_have_a_path_and_bound_the_list() {
    let tiny = all_unmarked().chain(all_marked(101)).map(|case| (case.label, case.setup));
    let random = random_sheets(15, 200).map(|case| (case.label, accepted(&case.sheet).setup));
    for (label, setup) in tiny.chain(random) {
        let paths = paths(&setup);
        let calls = Calls::new(&setup);
        for target in 0..setup.count as usize {
            let starting = setup.starting().into_iter().map(|(item, _)| item);
            let reaching = starting.filter(|&item| paths[item][target]);
            let set = reaching.fold(0, |set, item| set | 1 << item);
            assert_eq!(counted(&setup, target), set, "{label}: {target}");
            let list = calls.opening_list(target as u64).unwrap();
            assert!(list.len() as u64 <= forecast(&setup, target), "{label}: {target}");
            assert!(list.iter().all(|&opening| within(opening, set)), "{label}: {target}");
        }
    }
}
