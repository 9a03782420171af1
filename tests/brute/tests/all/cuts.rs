//! The smallest cut sets, against answers worked out by hand, against the sets that meet every
//! opening set, and the opening list against the sets that meet every cut set.

use crate::{accepted, calls, set};
use brute::cases::cuts::cuts;
use brute::cases::random::random_sheets;
use brute::cases::tiny::{all_marked, all_unmarked};
use brute::graph::closure;
use brute::setup::holds;
use brute::Calls;

#[test]
fn answers_worked_out_by_hand() {
    for case in cuts() {
        let calls = calls(&case.case.sheet);
        let list: Vec<u64> = case.cuts.iter().map(|items| set(items)).collect();
        assert_eq!(calls.cut_list(case.target), Ok(&list[..]), "{}", case.case.label);
        assert_eq!(calls.cut_list(calls.setup().count), Err(13), "{}", case.case.label);
        let mut lent = vec![77; list.len() + 1];
        assert_eq!(calls.cut_sets(case.target, &mut lent), Ok(list.len()));
        assert_eq!((&lent[..list.len()], lent[list.len()]), (&list[..], 77));
        let mut short = vec![77; list.len() - 1];
        assert_eq!(calls.cut_sets(case.target, &mut short), Err(15));
        assert!(short.iter().all(|&place| place == 77), "{}", case.case.label);
    }
}

#[test]
fn each_list_is_what_meets_the_other() {
    let tiny = all_unmarked().chain(all_marked(101)).map(|case| (case.label, case.setup));
    let random = random_sheets(16, 150).map(|case| (case.label, accepted(&case.sheet).setup));
    for (label, setup) in tiny.chain(random) {
        let calls = Calls::new(&setup);
        let all = setup.starting().into_iter().fold(0, |set, (item, _)| set | 1 << item);
        for target in 0..setup.count {
            let openings = calls.opening_list(target).unwrap();
            let cuts = calls.cut_list(target).unwrap();
            assert_eq!(calls.openings().meeting(openings), cuts, "{label}: {target}");
            assert_eq!(calls.openings().meeting(cuts), openings, "{label}: {target}");
            assert!(cuts.len() as u64 <= calls.forecast(target).unwrap(), "{label}: {target}");
            let opens = |set| holds(closure(&setup, set), target as usize);
            assert!(cuts.iter().all(|cut| !opens(all & !cut)), "{label}: {target}");
            assert_eq!(openings.is_empty(), cuts == [0], "{label}: {target}");
        }
    }
}
