//! Questions 12 to 15: which setups some sheet yields, the order of the questions, and what
//! lent lists hold afterwards.

use crate::{accepted, calls};
use brute::cases::draft::sheet_of_setup;
use brute::cases::readings::ORDER_SHEET;
use brute::cases::setups::{malformed_setups, near_misses, shaken_setups};
use brute::cases::tiny::{all_marked, all_unmarked};
use brute::living;
use brute::setup::items_of;
use brute::sheet::read;
use brute::{Calls, Edit, Setup, Way};

/// Question 12 as 02 asks it, in point 8: the setup is one from an accepted sheet and a list of calls
/// that change it. Names don't matter to a setup, nor does the order of edge rows, nor that of what
/// is taken in, so one sheet and one list are as good as any other.
fn some_sheet_yields(setup: &Setup) -> bool {
    let Ok(sheet) = read(&sheet_of_setup(setup)) else { return false };
    let held: Vec<Edit> = items_of(setup.held).map(|item| Edit::TakeIn(item as u64)).collect();
    living::run(&sheet.setup, &held).1 == *setup
}

#[test]
fn malformed_setups_are_refused() {
    for case in malformed_setups(1, 20) {
        assert!(!some_sheet_yields(&case.setup), "{}\n{}", case.label, case.setup);
        assert!(!case.setup.well_formed(), "{}\n{}", case.label, case.setup);
    }
}

#[test]
fn near_misses_are_accepted() {
    for case in near_misses(2, 20) {
        assert!(some_sheet_yields(&case.setup), "{}\n{}", case.label, case.setup);
        assert!(case.setup.well_formed(), "{}\n{}", case.label, case.setup);
    }
}

#[test]
fn shaken_setups_are_accepted_exactly_if_some_sheet_yields_them() {
    let mut good = 0;
    for case in shaken_setups(3, 4_000) {
        assert_eq!(case.setup.well_formed(), some_sheet_yields(&case.setup), "{}", case.label);
        good += usize::from(case.setup.well_formed());
    }
    assert!((400..3_600).contains(&good), "{good} well formed");
}

#[test]
fn tiny_setups_are_what_their_sheets_yield() {
    for case in all_unmarked().chain(all_marked(35)) {
        assert!(case.setup.well_formed() && some_sheet_yields(&case.setup), "{}", case.label);
    }
}

#[test]
fn question_12_comes_first() {
    let calls = Calls::new(&Setup::empty());
    assert_eq!(calls.closure(u64::MAX), Err(12));
    assert_eq!(calls.passes(u64::MAX), Err(12));
    assert_eq!(calls.lost_set(1), Err(12));
    assert_eq!(calls.way_in(1, 64, &mut [], &mut []), Err(12));
    assert_eq!(calls.lists(64, &mut []), Err(12));
    assert_eq!((calls.score(0), calls.risk(0)), (Err(12), Err(12)));
    assert_eq!(calls.mark_openings(0, &[]), Err(12));
    assert_eq!(calls.mark_lockouts(0, &[]), Err(12));
    assert_eq!((calls.backdoor(0), calls.idle(0)), (Err(12), Err(12)));
    assert_eq!(calls.out_of_rank(0, 0), Err(12));
}

#[test]
fn question_13_of_every_item_number() {
    let calls = calls(ORDER_SHEET);
    for item in [5, 63, 64, u64::MAX] {
        assert_eq!(calls.way_in(u64::MAX, item, &mut [], &mut []), Err(13));
        assert_eq!(calls.lists(item, &mut []), Err(13));
        assert_eq!((calls.score(item), calls.risk(item)), (Err(13), Err(13)));
        assert_eq!(calls.mark_openings(item, &[0]), Err(13));
        assert_eq!(calls.mark_lockouts(item, &[0]), Err(13));
        assert_eq!((calls.backdoor(item), calls.idle(item)), (Err(13), Err(13)));
        assert_eq!(calls.out_of_rank(item, 0), Err(13));
        assert_eq!(calls.out_of_rank(0, item), Err(13));
    }
}

#[test]
fn question_14_before_15() {
    let calls = calls(ORDER_SHEET);
    assert_eq!(calls.closure(1 << 5), Err(14));
    assert_eq!(calls.passes(1 << 5), Err(14));
    assert_eq!(calls.lost_set(u64::MAX), Err(14));
    assert_eq!(calls.way_in(1 << 5, 4, &mut [], &mut []), Err(14));
    // Of 64 items any set is one.
    let mut setup = accepted(ORDER_SHEET).setup;
    setup.count = 64;
    assert_eq!(Calls::new(&setup).closure(u64::MAX), Ok(u64::MAX));
}

#[test]
fn the_way_in_asks_15_only_where_it_is_not_shut() {
    let calls = calls(ORDER_SHEET);
    let (token, mailpw, order) = (0b100, 0b010, 4);
    assert_eq!(calls.way_in(token, order, &mut [], &mut []), Ok(Way::Shut));
    assert_eq!(calls.way_in(1 << order, order, &mut [], &mut []), Ok(Way::Steps(0)));
    for (items, colours) in [(0, 0), (1, 2), (2, 1), (0, 9), (9, 1)] {
        let (mut items, mut colours) = (vec![7; items], vec![8; colours]);
        assert_eq!(calls.way_in(mailpw, order, &mut items, &mut colours), Err(15));
        assert!(items.iter().all(|&item| item == 7) && colours.iter().all(|&colour| colour == 8));
    }
    let (mut items, mut colours) = ([7; 2], [8; 4]);
    assert_eq!(calls.way_in(mailpw, order, &mut items, &mut colours), Ok(Way::Steps(2)));
    assert_eq!((items, colours), ([3, 4], [0, 1, 8, 8]));
}

#[test]
fn both_lists_need_their_places_together() {
    let calls = calls(ORDER_SHEET);
    for length in 0..4 {
        let mut lent = vec![5; length];
        assert_eq!(calls.lists(4, &mut lent), Err(15));
        assert_eq!(lent, vec![5; length]);
    }
    let mut lent = [5; 4];
    assert_eq!(calls.lists(4, &mut lent), Ok((2, 2)));
    assert_eq!(lent, [0b010, 0b101, 0b011, 0b110]);
    // The only opening and lockout set of mail is {mailpw}.
    let mut lent = [5; 3];
    assert_eq!(calls.lists(3, &mut lent), Ok((1, 1)));
    assert_eq!(lent, [0b010, 0b010, 5]);
}
