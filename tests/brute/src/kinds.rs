//! The score by kinds of intruder on a well-formed setup (02, point 1; 003, definitions 15 and 17).
//! Six kinds: location remote or local, skill none, some or expert, numbered 3 times location plus
//! skill. No question is asked here.

use crate::setup::holds;

/// The number of kinds.
pub const KINDS: u8 = 6;

/// An intruder's location and skill.
#[derive(Clone, Copy, Debug, PartialEq, Eq)]
pub struct Intruder {
    location: u8,
    skill: u8,
}

impl Intruder {
    /// The kind with that number.
    pub fn numbered(number: u8) -> Intruder {
        Intruder { location: number / 3, skill: number % 3 }
    }

    /// 3 times location plus skill.
    pub fn number(self) -> u8 {
        3 * self.location + self.skill
    }

    /// One is at most another if both parts are.
    pub fn at_most(self, other: Intruder) -> bool {
        self.location <= other.location && self.skill <= other.skill
    }
}

/// A set's kind: the larger of each part.
fn kind_of_set(set: u64, kinds: &[u8]) -> Intruder {
    let items = (0..kinds.len()).filter(|&item| holds(set, item));
    items.map(|item| Intruder::numbered(kinds[item])).fold(Intruder::numbered(0), |all, one| {
        Intruder { location: all.location.max(one.location), skill: all.skill.max(one.skill) }
    })
}

/// The score over an opening list: its sets' kinds that have no other of them below, as the sum of
/// 2^k over them.
pub fn score(list: &[u64], kinds: &[u8]) -> u64 {
    let of_sets: Vec<Intruder> = list.iter().map(|&set| kind_of_set(set, kinds)).collect();
    let below = |one: Intruder, other: Intruder| one != other && one.at_most(other);
    let lowest = of_sets.iter().filter(|&&kind| !of_sets.iter().any(|&other| below(other, kind)));
    lowest.fold(0, |score, kind| score | 1 << kind.number())
}

/// Whether an intruder is above some kind of the score, or equal to it.
pub fn at_or_above(score: u64, intruder: Intruder) -> bool {
    (0..KINDS).any(|kind| holds(score, kind.into()) && Intruder::numbered(kind).at_most(intruder))
}
