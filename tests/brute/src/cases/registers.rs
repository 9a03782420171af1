//! Calls on the class register, and slices of records with any contents.

use super::probes::{hand_ins, item_numbers};
use super::Rng;
use crate::calls::Calls;
use crate::register::{Attempt, Call, Record};
use crate::setup::PLACES;
use std::collections::BTreeMap;

/// The students of an afternoon: few, so that they come again.
const STUDENTS: [u64; 4] = [0, 7, 8, u64::MAX];

/// A call of an afternoon. Targets are few too, one of them no item; lists are right, shuffled, with
/// one missing, repeated, empty and more.
pub fn call(rng: &mut Rng, calls: &Calls) -> Call {
    if rng.chance(1, 4) {
        return Call::Withdraw(*rng.pick(&STUDENTS));
    }
    Call::HandIn(attempt(rng, calls))
}

/// An attempt of an afternoon.
pub fn attempt(rng: &mut Rng, calls: &Calls) -> Attempt {
    let count = calls.setup().count.min(PLACES as u64);
    let targets = [0, count.saturating_sub(1), count / 2, *rng.pick(&item_numbers(count))];
    let (target, lock) = (*rng.pick(&targets), rng.chance(1, 2));
    let (right, members) = if lock {
        (calls.lockout_list(target).unwrap_or_default(), calls.setup().losable())
    } else {
        (calls.opening_list(target).unwrap_or_default(), calls.setup().starting())
    };
    let allowed = members.iter().fold(0, |set, &(item, _)| set | 1 << item);
    let lists = hand_ins(rng, right, allowed, count);
    let sets = rng.pick(&lists).sets.clone();
    Attempt { student: *rng.pick(&STUDENTS), target, lock, sets }
}

/// A slice with any contents, among them records that say the same three more than once, and ways
/// that are none.
pub fn slice(rng: &mut Rng, calls: &Calls, places: usize) -> Vec<Record> {
    let count = calls.setup().count.min(PLACES as u64);
    let record = |rng: &mut Rng| {
        let ways = [0, 1, 0, 1, 7, u64::MAX];
        let [right, repeated, shut, loose, missing] =
            [0; 5].map(|_: u64| rng.number() >> rng.below(64));
        let (student, target) = (*rng.pick(&STUDENTS), rng.below(1 + count as usize) as u64);
        Record { student, target, way: *rng.pick(&ways), right, repeated, shut, loose, missing }
    };
    (0..places).map(|_| record(rng)).collect()
}

/// A slice for one call, of which each of the call's three stands in a record one time in two: so often
/// the student has several records with others between them, and the three stand in more than one.
pub fn slice_for(rng: &mut Rng, calls: &Calls, places: usize, call: &Call) -> Vec<Record> {
    let mut records = slice(rng, calls, places);
    for record in &mut records {
        let (student, target, way) = match call {
            Call::HandIn(attempt) => attempt.three(),
            Call::Withdraw(student) => (*student, record.target, record.way),
        };
        if rng.chance(1, 2) {
            record.student = student;
        }
        if rng.chance(1, 2) {
            record.target = target;
        }
        if rng.chance(1, 2) {
            record.way = way;
        }
    }
    records
}

/// How often calls came to each outcome, by its name: a refusal's number, or what an accepted call did.
/// A run holds it to the fewest of each, so that no generator comes to miss one unseen.
#[derive(Debug, Default)]
pub struct Met(BTreeMap<&'static str, usize>);

impl Met {
    /// Counts a call, which answered with this number on the slice and count as they were before it.
    pub fn count(&mut self, calls: &Calls, before: &[Record], used: u64, call: &Call, number: u64) {
        for name in outcomes(calls, before, used as usize, call, number) {
            *self.0.entry(name).or_default() += 1;
        }
    }

    /// Counts what another run has met, too.
    pub fn add(&mut self, other: &Met) {
        for (&name, many) in &other.0 {
            *self.0.entry(name).or_default() += many;
        }
    }

    /// The outcomes that were met less often than is asked for, with how often they were.
    pub fn too_few(&self, fewest: &[(&'static str, usize)]) -> Vec<(&'static str, usize)> {
        let met = fewest.iter().map(|&(name, many)| (name, self.of(name), many));
        met.filter(|&(_, met, many)| met < many).map(|(name, met, _)| (name, met)).collect()
    }

    fn of(&self, name: &str) -> usize {
        self.0.get(name).copied().unwrap_or_default()
    }
}

/// What one call came to: some outcomes are a part of others, as the first of several that is replaced.
fn outcomes(
    calls: &Calls,
    before: &[Record],
    used: usize,
    call: &Call,
    number: u64,
) -> Vec<&'static str> {
    match (number, call) {
        (12, _) => vec!["12"],
        (13, _) => vec!["13"],
        (25, Call::HandIn(_)) if !calls.well_formed() => vec!["25", "25 before 12"],
        (25, _) => vec!["25"],
        (26, _) => vec!["26"],
        (27, _) => vec!["27"],
        (_, Call::HandIn(attempt)) => {
            let with_three = before[..used].iter().filter(|old| old.three() == attempt.three());
            match with_three.count() {
                0 => vec!["new"],
                1 => vec!["replaced"],
                _ => vec!["replaced", "the first of several replaced"],
            }
        }
        (_, Call::Withdraw(student)) => {
            let places: Vec<usize> =
                (0..used).filter(|&place| before[place].student == *student).collect();
            let next_to_each_other = places.windows(2).all(|pair| pair[0] + 1 == pair[1]);
            if next_to_each_other {
                vec!["withdrawn"]
            } else {
                vec!["withdrawn", "gaps closed"]
            }
        }
    }
}
