//! Long lists of handed-in sets in several orders, marked in a thread with little stack: how much of
//! it marking needs does not hang on the list. A thread with too little of it ends the program.

use crate::compare::{Difference, Subject};
use brute::cases::Rng;
use std::collections::HashSet;
use std::thread;

/// How many sets are handed in.
const MANY: usize = 3_000_000;

/// The thread's stack in bytes: less than the header asks for, and more than marking was seen to need.
const STACK: usize = 480 << 10;

/// An account behind one credential: its list has one set.
const SHEET: &[u8] =
    b"name kind start loss rank\npw c 1 1 0\nmail a - - 1\n\nfrom to colour rec\npw mail 0 0\n";

/// Marks each list, and counts its different sets besides. All have a vertex that is not there, so
/// that each is shut or repeated, and the list's one set is missing.
pub fn compare_long_lists(seed: u64) -> Result<(), Box<Difference>> {
    let mut setup = vec![0; portal::WORDS];
    assert_eq!(portal::read(SHEET, &mut setup).number, 0, "the sheet is accepted");
    for (label, sets) in lists(seed) {
        let different = sets.iter().collect::<HashSet<_>>().len() as u64;
        let expected = vec![0, 0, MANY as u64 - different, different, 0, 1];
        let marked = marked(setup.clone(), sets);
        let subject = Subject { label, sheet: Some(SHEET), setup: None };
        subject.same(|| format!("mark_openings(1) of {MANY} sets"), marked, expected)?;
    }
    Ok(())
}

fn lists(seed: u64) -> [(&'static str, Vec<u64>); 4] {
    let mut rng = Rng::new(seed);
    let shuffled: Vec<u64> = (0..MANY).map(|_| rng.number() | 1 << 63).collect();
    let mut all_but_last = shuffled.clone();
    all_but_last.sort_unstable();
    let falling = all_but_last.iter().rev().copied().collect();
    all_but_last.rotate_left(1);
    let two = [1 << 62, u64::MAX].into_iter().cycle().take(MANY).collect();
    [
        ("a long list, shuffled", shuffled),
        ("a long list that rises but for the last", all_but_last),
        ("a long list that falls", falling),
        ("a long list of two values in turn", two),
    ]
}

/// The number of the answer, and its five counts.
fn marked(setup: Vec<u64>, sets: Vec<u64>) -> Vec<u64> {
    let work = move || portal::mark_openings(&setup, 1, &sets).numbers();
    let thread = thread::Builder::new().stack_size(STACK).spawn(work);
    thread.expect("a thread starts").join().expect("marking ends")
}
