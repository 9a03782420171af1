//! Bags of values, and scores as bags (02, point 6).

/// A list with more values is no bag.
pub const MOST: usize = 14;

/// Is the one at most the other? Yes exactly when both lists are bags and a pairing exists.
pub fn at_most(one: &[u64], other: &[u64]) -> bool {
    let bags = one.len() <= MOST && other.len() <= MOST;
    bags && every_injection(one, other, 0, &mut vec![false; 1 << other.len()])
}

/// Can the values of the one be paired, one to one, with values of the other that are at least as
/// high? Every partner that is left is tried for the next value, and for each of them every pairing
/// of the rest. The taken places are bits; as many values are paired as places are taken, so that
/// a choice of places from which the rest could not be paired need not be tried again.
fn every_injection(one: &[u64], other: &[u64], taken: usize, failed: &mut [bool]) -> bool {
    let Some(&value) = one.get(taken.count_ones() as usize) else { return true };
    if failed[taken] {
        return false;
    }
    let free = |place: &usize| taken >> place & 1 == 0 && other[*place] >= value;
    let paired = (0..other.len())
        .filter(free)
        .any(|place| every_injection(one, other, taken | 1 << place, failed));
    failed[taken] = !paired;
    paired
}

/// The values, the highest first.
pub fn arranged(mut bag: Vec<u64>) -> Vec<u64> {
    bag.sort_unstable_by(|a, b| b.cmp(a));
    bag
}

/// The bag of a set's values.
pub fn of(set: u64, value: impl Fn(usize) -> u64) -> Vec<u64> {
    arranged((0..64).filter(|item| set >> item & 1 == 1).map(value).collect())
}

/// The bag score over an opening list: its sets' bags to which no different one of them is at most,
/// each one time, in the order of the first set that has them.
pub fn score(list: &[u64], value: impl Fn(usize) -> u64) -> Vec<Vec<u64>> {
    let mut bags: Vec<Vec<u64>> = Vec::new();
    for &set in list {
        let bag = of(set, &value);
        if !bags.contains(&bag) {
            bags.push(bag);
        }
    }
    let lowest = |bag: &&Vec<u64>| !bags.iter().any(|other| other != *bag && at_most(other, bag));
    bags.iter().filter(lowest).cloned().collect()
}

/// Each bag in 14 places of the one list, unused ones 0, and its length in the other. 15.
pub fn write(score: &[Vec<u64>], values: &mut [u64], lengths: &mut [u64]) -> Result<usize, u8> {
    if values.len() < MOST * score.len() || lengths.len() < score.len() {
        return Err(15);
    }
    for (number, bag) in score.iter().enumerate() {
        let places = &mut values[MOST * number..MOST * (number + 1)];
        places.fill(0);
        places[..bag.len()].copy_from_slice(bag);
        lengths[number] = bag.len() as u64;
    }
    Ok(score.len())
}
