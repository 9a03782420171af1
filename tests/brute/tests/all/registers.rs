//! The class register: sentences of document 02 on small afternoons, and the register worked out from
//! the log against the two calls made one after the other.

use crate::calls;
use brute::cases::random::random_sheets;
use brute::cases::{registers, Rng};
use brute::register::{hand_in, withdraw, Afternoon, Attempt, Call, Record};
use brute::Calls;

/// The fewest calls that the test of the log comes to, by outcome; 12 and 25 can't come there, nor can
/// the three stand twice.
const FEWEST: [(&str, usize); 7] = [
    ("new", 200),
    ("replaced", 50),
    ("withdrawn", 50),
    ("gaps closed", 10),
    ("13", 50),
    ("26", 50),
    ("27", 50),
];

/// Two starting items, each of which opens the account that is item 2.
const SHEET: &str =
    "name kind start loss rank\na c 1 1 0\nb c 2 1 0\nc a - - 1\n\nfrom to colour rec\n\
                     a c 0 0\nb c 1 0\n";

fn attempt(student: u64, target: u64, lock: bool, sets: &[u64]) -> Call {
    Call::HandIn(Attempt { student, target, lock, sets: sets.to_vec() })
}

fn threes(records: &[Record]) -> Vec<(u64, u64, u64, u64)> {
    records.iter().map(|r| (r.student, r.target, r.way, r.right)).collect()
}

#[test]
fn the_latest_attempt_stands_where_the_first_did() {
    let calls = calls(SHEET);
    let mut register = Afternoon::new(&calls, vec![Record::default(); 4]);
    assert_eq!(register.make(attempt(5, 2, false, &[1, 2])), (0, 1));
    assert_eq!(register.make(attempt(6, 2, false, &[1])), (0, 2));
    // the way is one of the three
    assert_eq!(register.make(attempt(5, 2, true, &[])), (0, 3));
    // not the better one, but the latest, and not at the end
    assert_eq!(register.make(attempt(5, 2, false, &[2])), (0, 3));
    assert_eq!(threes(register.slice())[..3], [(5, 2, 0, 1), (6, 2, 0, 1), (5, 2, 1, 0)]);
    // after a withdrawal the three come first anew
    assert_eq!(register.make(Call::Withdraw(5)), (0, 1));
    assert_eq!(register.make(attempt(5, 2, false, &[])), (0, 2));
    assert_eq!(threes(register.slice())[..2], [(6, 2, 0, 1), (5, 2, 0, 0)]);
}

#[test]
fn refusals_and_freed_places() {
    let calls = calls(SHEET);
    let before = Record { student: 99, ..Record::default() };
    let mut register = Afternoon::new(&calls, vec![before; 2]);
    assert_eq!(register.make(Call::Withdraw(99)), (27, 0));
    assert_eq!(register.make(attempt(1, 3, false, &[])), (13, 0));
    assert_eq!(register.make(attempt(1, 2, false, &[])), (0, 1));
    assert_eq!(register.make(attempt(2, 2, false, &[])), (0, 2));
    assert_eq!(register.make(attempt(3, 2, false, &[])), (26, 2));
    // replaced, though all are used
    assert_eq!(register.make(attempt(2, 2, false, &[1])), (0, 2));
    assert_eq!(register.make(Call::Withdraw(1)), (0, 1));
    // the freed place keeps what stood in it
    assert_eq!(threes(register.slice()), [(2, 2, 0, 1), (2, 2, 0, 1)]);
    let mut slice = [before; 2];
    assert_eq!(withdraw(&mut slice, 3, 99), (25, 3));
    assert_eq!(withdraw(&mut slice, 2, 99), (0, 0));
    assert_eq!(slice, [before; 2]);
}

#[test]
fn the_log_against_the_calls_one_after_the_other() {
    let (mut rng, mut met) = (Rng::new(12), registers::Met::default());
    for case in random_sheets(12, 60) {
        let calls: Calls = calls(&case.sheet);
        let places = rng.below(7);
        let slice = registers::slice(&mut rng, &calls, places);
        let (mut kept, mut used) = (slice.clone(), 0);
        let mut register = Afternoon::new(&calls, slice);
        for _ in 0..40 {
            let call = registers::call(&mut rng, &calls);
            let before = kept.clone();
            let (number, count) = register.make(call.clone());
            met.count(&calls, &before, used, &call, number);
            let one = match &call {
                Call::HandIn(attempt) => hand_in(&calls, &mut kept, used, attempt),
                Call::Withdraw(student) => withdraw(&mut kept, used, *student),
            };
            assert_eq!((number, count as u64), one, "{}: {call:?}", case.label);
            assert_eq!(register.slice(), kept, "{}: {call:?}", case.label);
            used = one.1;
        }
    }
    assert!(met.too_few(&FEWEST).is_empty(), "too little was met: {met:?}");
}
