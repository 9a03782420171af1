//! The class register: whole afternoons from an empty register, and single calls on any slice.

use crate::compare::{Difference, Subject};
use brute::cases::registers::{self, Met};
use brute::cases::Rng;
use brute::register::{self, Afternoon, Attempt, Call, Record};
use brute::Calls;

type Outcome = Result<(), Box<Difference>>;

pub fn lent(records: &[Record]) -> Vec<portal::Record> {
    let record = |r: &Record| portal::Record {
        student: r.student,
        target: r.target,
        way: r.way,
        right: r.right,
        repeated: r.repeated,
        shut: r.shut,
        loose: r.loose,
        missing: r.missing,
    };
    records.iter().map(record).collect()
}

fn made(words: &[u64], records: &mut [portal::Record], used: usize, call: &Call) -> (u64, usize) {
    let answer = match call {
        Call::HandIn(Attempt { student, target, lock, sets }) => {
            portal::hand_in(words, records, used, *student, *target, *lock, sets)
        }
        Call::Withdraw(student) => portal::withdraw(records, used, *student),
    };
    (answer.number, answer.used)
}

/// Calls one after the other, slice and count handed on as they came back. After each call its
/// number, the count and every record of the slice are compared, those that are not used too.
pub fn compare_afternoon(
    subject: &Subject<'_>,
    words: &[u64],
    calls: &Calls,
    rng: &mut Rng,
    many: usize,
    met: &mut Met,
) -> Outcome {
    let places = rng.below(8);
    let slice = registers::slice(rng, calls, places);
    let (mut proved, mut used) = (lent(&slice), 0);
    let mut brute = Afternoon::new(calls, slice);
    for made_before in 0..many {
        let call = registers::call(rng, calls);
        let before = brute.slice().to_vec();
        let answer = made(words, &mut proved, used, &call);
        let expected = brute.make(call.clone());
        let named =
            || format!("call {made_before} of an afternoon with {places} places: {call:x?}");
        subject.same(named, (answer, &proved), (expected, &lent(brute.slice())))?;
        met.count(calls, &before, used as u64, &call, answer.0);
        used = answer.1;
    }
    Ok(())
}

/// Single calls on slices with any contents and counts, among them records that have the call's three
/// more than once, and counts above the slice's length.
pub fn compare_register_calls(
    subject: &Subject<'_>,
    words: &[u64],
    calls: &Calls,
    rng: &mut Rng,
    many: usize,
    met: &mut Met,
) -> Outcome {
    for _ in 0..many {
        let places = rng.below(8);
        let call = registers::call(rng, calls);
        let slice = registers::slice_for(rng, calls, places, &call);
        let some = rng.below(places + 1);
        let counts = [places, places, places + 1, usize::MAX, 0, some, some, some];
        let used = *rng.pick(&counts);
        let (mut proved, mut brute) = (lent(&slice), slice.clone());
        let (number, count) = made(words, &mut proved, used, &call);
        let expected = match &call {
            Call::HandIn(attempt) => register::hand_in(calls, &mut brute, used as u64, attempt),
            Call::Withdraw(student) => register::withdraw(&mut brute, used as u64, *student),
        };
        let named = || format!("{call:x?} on {used} used of {slice:x?}");
        subject.same(named, ((number, count as u64), proved), (expected, lent(&brute)))?;
        met.count(calls, &slice, used as u64, &call, number);
    }
    Ok(())
}
