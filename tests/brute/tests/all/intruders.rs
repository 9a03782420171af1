//! The score by kinds of intruder, against answers worked out by hand, and against who gets in.

use crate::{accepted, calls};
use brute::cases::intruders::intruders;
use brute::cases::random::random_sheets;
use brute::cases::tiny::{all_marked, all_unmarked};
use brute::graph::closure;
use brute::kinds::{at_or_above, Intruder, KINDS};
use brute::setup::{holds, single};
use brute::{Calls, Setup};

#[test]
fn answers_worked_out_by_hand() {
    for case in intruders() {
        let calls = calls(&case.case.sheet);
        assert_eq!(calls.kinds(case.target, &case.kinds), case.answer, "{}", case.case.label);
    }
}

/// The kinds file that stands beside a sheet: a row for each starting item, and for no other one.
#[test]
fn the_list_among_the_examples() {
    let sheet = include_bytes!("../../../../examples/figure-07-intruders.sheet");
    let list = include_str!("../../../../examples/figure-07-intruders.kinds");
    let names = accepted(sheet).names_in(sheet);
    let item = |name: &str| names.iter().position(|other| other == name).unwrap();
    let mut rows = list.lines().filter(|line| !line.starts_with('#'));
    assert_eq!(rows.next(), Some("name location skill"));
    let mut kinds = vec![u8::MAX; names.len()];
    for row in rows {
        let fields: Vec<&str> = row.split(' ').collect();
        let place = |words: &[&str], word| words.iter().position(|other| *other == word).unwrap();
        let location = place(&["remote", "local"], fields[1]);
        let skill = place(&["none", "some", "expert"], fields[2]);
        kinds[item(fields[0])] = (3 * location + skill) as u8;
    }
    let starting = accepted(sheet).setup.starting();
    let given = (0..names.len()).filter(|&item| kinds[item] != u8::MAX);
    assert!(given.eq(starting.iter().map(|&(item, _)| item)));
    let score = |name| calls(sheet).kinds(item(name) as u64, &kinds);
    assert_eq!(score("acc_shop"), Ok(2));
    assert_eq!(score("acc_mail"), Ok(16));
}

#[test]
fn the_order_of_the_six_kinds() {
    let at_most = |a: u8, b: u8| Intruder::numbered(a).at_most(Intruder::numbered(b));
    let below: Vec<Vec<u8>> =
        (0..KINDS).map(|b| (0..KINDS).filter(|&a| at_most(a, b)).collect()).collect();
    let by_hand: [&[u8]; 6] =
        [&[0], &[0, 1], &[0, 1, 2], &[0, 3], &[0, 1, 3, 4], &[0, 1, 2, 3, 4, 5]];
    assert_eq!(below, by_hand);
}

/// The starting items of at most that kind open the target.
fn gets_in(setup: &Setup, kinds: &[u8], target: usize, intruder: Intruder) -> bool {
    let starting = setup.starting().into_iter().map(|(item, _)| item);
    let held = starting.filter(|&item| Intruder::numbered(kinds[item]).at_most(intruder));
    holds(closure(setup, held.fold(0, |set, item| set | single(item))), target)
}

#[test]
fn who_is_at_or_above_the_score_gets_in() {
    let tiny = all_unmarked().chain(all_marked(101)).map(|case| (case.label, case.setup));
    let random = random_sheets(21, 200).map(|case| (case.label, accepted(&case.sheet).setup));
    for (number, (label, setup)) in tiny.chain(random).enumerate() {
        let calls = Calls::new(&setup);
        let kinds: Vec<u8> =
            (0..setup.count as usize).map(|item| ((7 * number + 5 * item) % 6) as u8).collect();
        for target in 0..setup.count as usize {
            let score = calls.kinds(target as u64, &kinds).unwrap();
            for intruder in (0..KINDS).map(Intruder::numbered) {
                let expected = gets_in(&setup, &kinds, target, intruder);
                assert_eq!(
                    at_or_above(score, intruder),
                    expected,
                    "{label}: {target}, {intruder:?}"
                );
            }
        }
    }
}
