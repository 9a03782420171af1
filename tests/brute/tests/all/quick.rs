//! The quick yes (02, point 2): some answers beside those worked out by hand; and on many sheets both
//! the answer and the set beside steps that are taken here, the closure, and the way in.

use crate::{accepted, calls, set};
use brute::cases::random::random_sheets;
use brute::cases::readings::ORDER_SHEET;
use brute::cases::tiny::all_unmarked;
use brute::setup::{holds, single};
use brute::{Calls, Setup};

// The items of 01's sheet: mail needs mailpw; order needs ordpw and token, or mail.
const ORDPW: u64 = 0;
const MAILPW: u64 = 1;
const TOKEN: u64 = 2;
const MAIL: u64 = 3;
const ORDER: u64 = 4;

#[test]
fn stops_as_soon_as_the_target_is_held() {
    let calls = calls(ORDER_SHEET);
    let all = [ORDPW, MAILPW, TOKEN];
    // A whole pass would bring order too.
    assert_eq!(calls.opens(set(&all), MAIL), Ok((true, set(&[ORDPW, MAILPW, TOKEN, MAIL]))));
    // Mail is not needed, but it is the lower item: the way in has it.
    assert_eq!(
        calls.opens(set(&all), ORDER),
        Ok((true, set(&[ORDPW, MAILPW, TOKEN, MAIL, ORDER])))
    );
    assert_eq!(calls.opens(set(&[MAILPW]), MAIL), Ok((true, set(&[MAILPW, MAIL]))));
    assert_eq!(calls.opens(set(&[ORDPW, TOKEN]), ORDER), Ok((true, set(&[ORDPW, TOKEN, ORDER]))));
}

#[test]
fn a_held_target_gives_the_given_set() {
    let calls = calls(ORDER_SHEET);
    // The closure of these has mail and order.
    assert_eq!(calls.opens(set(&[MAILPW, TOKEN]), TOKEN), Ok((true, set(&[MAILPW, TOKEN]))));
    assert_eq!(calls.opens(set(&[ORDER]), ORDER), Ok((true, set(&[ORDER]))));
}

#[test]
fn a_no_gives_the_full_closure() {
    let calls = calls(ORDER_SHEET);
    assert_eq!(calls.opens(0, ORDER), Ok((false, 0)));
    // A starting item that is not held is not opened, and the set is not the given one.
    let closure = set(&[MAILPW, MAIL, ORDER]);
    assert_eq!(calls.opens(set(&[MAILPW]), ORDPW), Ok((false, closure)));
}

#[test]
fn asks_12_then_13_then_14() {
    let mut setup = accepted(ORDER_SHEET).setup;
    assert_eq!(Calls::new(&setup).opens(1 << 5, 5), Err(13));
    assert_eq!(Calls::new(&setup).opens(1 << 5, ORDER), Err(14));
    assert_eq!(Calls::new(&setup).opens(1 << 5, ORDPW), Err(14));
    setup.places[0].rank = 10;
    assert_eq!(Calls::new(&setup).opens(1 << 5, 5), Err(12));
}

/// The lowest item that one pass from what is held adds, again and again, until the target is in.
fn by_steps(setup: &Setup, given: u64, target: usize) -> (bool, u64) {
    let mut held = given;
    while !holds(held, target) {
        let places = setup.places.iter().enumerate().filter(|&(item, _)| !holds(held, item));
        let complete = |row: &u64| *row != 0 && row & !held == 0;
        let mut opened = places.filter(|(_, place)| place.rows.iter().any(complete));
        let Some((item, _)) = opened.next() else { return (false, held) };
        held |= single(item);
    }
    (true, held)
}

#[test]
fn agrees_with_steps_closures_and_ways_in() {
    let tiny = all_unmarked().map(|case| (case.label, case.setup));
    let random = random_sheets(2, 60).map(|case| (case.label, accepted(&case.sheet).setup));
    for (label, setup) in tiny.chain(random) {
        let calls = Calls::new(&setup);
        let few = setup.count.min(4);
        for given in 0..1 << few {
            let closure = calls.closure(given).unwrap();
            for target in 0..setup.count {
                let (yes, held) = calls.opens(given, target).unwrap();
                let steps = by_steps(&setup, given, target as usize);
                assert_eq!((yes, held), steps, "{label}: {given:#x} to {target}");
                assert_eq!(yes, holds(closure, target as usize), "{label}: {given:#x} to {target}");
                let mut items = [0; 64];
                let way = calls.way_in(given, target, &mut items, &mut [0; 64]).unwrap();
                let brute::calls::Way::Steps(steps) = way else {
                    assert_eq!(held, closure, "{label}: {given:#x} to {target}");
                    continue;
                };
                let added = items[..steps].iter().fold(0, |added, &item| added | 1 << item);
                assert_eq!(held & !given, added, "{label}: {given:#x} to {target}");
            }
        }
    }
}
