//! The next set of an opening list, against answers worked out by hand and against the list itself:
//! with no change in between the sets shown are the whole list.

use crate::{accepted, calls};
use brute::cases::random::random_sheets;
use brute::cases::tiny::{all_marked, all_unmarked};
use brute::cases::walks::next_cases;
use brute::next::{comes_after, next};
use brute::{Calls, Setup};

#[test]
fn answers_worked_out_by_hand() {
    for case in next_cases() {
        let calls = calls(&case.case.sheet);
        for (last, answer) in case.shown {
            let label = &case.case.label;
            assert_eq!(calls.next_opening(case.target, last), answer, "{label}: after {last:#x}");
            // 13 comes before 21
            assert_eq!(calls.next_opening(calls.setup().count, last), Err(13), "{label}");
        }
    }
}

#[test]
fn of_the_lockout_list_another_set_would_be_shown() {
    let cases = next_cases();
    let case = cases.iter().find(|case| case.case.label.ends_with("no lockout set")).unwrap();
    let calls = calls(&case.case.sheet);
    let lockouts = calls.lockout_list(case.target).unwrap();
    assert_eq!(lockouts, [7]);
    assert_eq!(next(lockouts, 2), Some(7));
    assert_eq!(calls.next_opening(case.target, 2), Ok(None));
}

#[test]
fn a_malformed_setup_gets_12() {
    let calls = Calls::new(&Setup::empty());
    assert_eq!(calls.next_opening(0, u64::MAX), Err(12));
}

/// All sets that are shown from the empty one on.
fn walk(calls: &Calls, target: u64) -> Vec<u64> {
    let mut shown = Vec::new();
    let mut last = 0;
    while let Some(set) = calls.next_opening(target, last).unwrap() {
        shown.push(set);
        last = set;
    }
    shown
}

#[test]
fn with_no_change_the_whole_list_is_shown() {
    let tiny = all_unmarked().chain(all_marked(101)).map(|case| (case.label, case.setup));
    let random = random_sheets(21, 200).map(|case| (case.label, accepted(&case.sheet).setup));
    for (label, setup) in tiny.chain(random) {
        let calls = Calls::new(&setup);
        for target in 0..setup.count {
            let list = calls.opening_list(target).unwrap();
            assert_eq!(walk(&calls, target), list, "{label}: {target}");
        }
    }
}

#[test]
fn a_set_is_passed_over_exactly_where_it_is_not_after_the_last() {
    let list = [4, 8, 3, 5, 7];
    for last in 0..16 {
        let after: Vec<u64> = list.into_iter().filter(|&set| comes_after(set, last)).collect();
        assert_eq!(next(&list, last), after.first().copied(), "after {last}");
    }
}
