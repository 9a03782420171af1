//! What to ask of a setup: sets, item numbers, lent lists and handed-in lists, good and bad.

use super::Rng;
use crate::setup::{take_in, PLACES};

/// Item numbers: all of the setup's, then some that are not there.
pub fn item_numbers(count: u64) -> Vec<u64> {
    let mut numbers: Vec<u64> = (0..count).collect();
    for number in [count, count + 1, 63, 64, 127, 255, 256, 1 << 32, u64::MAX] {
        if number >= count && !numbers.contains(&number) {
            numbers.push(number);
        }
    }
    numbers
}

/// Sets of the setup's items: all of them where there are at most 4 items, otherwise the
/// empty one, the full one and `many` others.
pub fn sets_within(rng: &mut Rng, count: u64, many: usize) -> Vec<u64> {
    if count <= 4 {
        return (0..1u64 << count).collect();
    }
    let all = (0..count).fold(0, take_in);
    let mut sets = vec![0, all];
    for number in 0..many {
        sets.push(match number % 4 {
            0 => rng.number() & all,
            1 => rng.number() & rng.number() & all,
            2 => 1 << rng.below(count as usize),
            _ => all & !(1 << rng.below(count as usize)),
        });
    }
    sets
}

/// Sets that have an item outside the setup; none where it has 64 items.
pub fn sets_outside(rng: &mut Rng, count: u64) -> Vec<u64> {
    if count >= PLACES as u64 {
        return Vec::new();
    }
    let next = 1u64 << count;
    vec![next, next | 1, 1 << 63, u64::MAX, rng.number() | next]
}

/// Lengths of lent lists around the ones that matter where `first` and then `second` places are
/// to be written.
pub fn lent_lengths(first: usize, second: usize) -> Vec<usize> {
    let both = first + second;
    let mut lengths =
        vec![0, both / 2, first, second, both.saturating_sub(1), both, both + 1, both + 7];
    lengths.sort_unstable();
    lengths.dedup();
    lengths
}

/// A lent list of set numbers with anything in it.
pub fn lent_sets(rng: &mut Rng, length: usize) -> Vec<u64> {
    (0..length).map(|_| rng.number()).collect()
}

/// A lent list of bytes with anything in it.
pub fn lent_bytes(rng: &mut Rng, length: usize) -> Vec<u8> {
    (0..length).map(|_| rng.number() as u8).collect()
}

/// A list handed in for marking.
#[derive(Clone, Debug)]
pub struct HandIn {
    /// What was done to the right list.
    pub label: &'static str,
    /// The sets.
    pub sets: Vec<u64>,
}

/// Handed-in lists made from the right one. `allowed` are the starting (or losable) items as a
/// set, `count` is the setup's item count.
pub fn hand_ins(rng: &mut Rng, right: &[u64], allowed: u64, count: u64) -> Vec<HandIn> {
    let all = (0..count).fold(0, take_in);
    let list = right.to_vec();
    let with = |more: &[u64]| [right, more].concat();
    let mut cases = Vec::new();
    let mut add = |label, sets| cases.push(HandIn { label, sets });

    add("none", Vec::new());
    add("right", list.clone());
    add("backwards", list.iter().rev().copied().collect());
    add("twice", with(right));
    let mut shuffled = list.clone();
    rng.shuffle(&mut shuffled);
    add("shuffled", shuffled);
    if !right.is_empty() {
        let chosen = rng.below(right.len());
        let set = right[chosen];
        let mut one_missing = list.clone();
        one_missing.remove(chosen);
        add("one missing", one_missing.clone());
        add("one repeated", with(&[set]));
        add("one repeated at once", [&[set][..], right].concat());
        add("one for another", [&one_missing[..], &[right[0]]].concat());
        add("one with all allowed items", with(&[allowed]));
        add("one with an allowed item more", with(&[set | (rng.number() & allowed)]));
        add("one with any item more", with(&[set | 1 << rng.below(PLACES)]));
        add("one with an item less", with(&[set & (set - 1)]));
        // What a set counts as does not matter to its repetition.
        let strange = set | !all;
        add("strange ones repeated", with(&[strange, 0, strange, 0, allowed, allowed, strange]));
    }
    add("the empty set", vec![0]);
    add("outsiders", with(&[rng.number() & all, rng.number() & allowed, rng.number() & allowed]));
    let single = 1 << rng.below(count.clamp(1, PLACES as u64) as usize);
    add("single items", vec![single, single & allowed, all, allowed]);
    add("huge numbers", with(&[u64::MAX, 1 << 63, !allowed, rng.number(), u64::MAX - 1]));
    let mut mixture: Vec<u64> = (0..rng.between(1, 12)).map(|_| rng.number() & allowed).collect();
    mixture.extend(right.iter().take(8));
    mixture.extend_from_within(..rng.below(mixture.len()));
    rng.shuffle(&mut mixture);
    add("a mixture", mixture);
    cases
}
