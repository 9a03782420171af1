//! An opening list shown one set at a time (02, point 9): the call gets the last set shown and
//! gives the first in the list's order after it that is an opening-list set of the setup as now
//! drawn, or "no more" exactly when there is none. No question is asked here.

/// Where a set stands in the list's order: fewer items first, then the smaller set number.
fn place(set: u64) -> (u32, u64) {
    (set.count_ones(), set)
}

/// Whether a set comes after another in the list's order; both may be any sets.
pub fn comes_after(set: u64, other: u64) -> bool {
    place(set) > place(other)
}

/// The first set of the list that comes after the last one shown, wherever it stands in the list;
/// `None` is "no more".
pub fn next(list: &[u64], last: u64) -> Option<u64> {
    let after = list.iter().copied().filter(|&set| comes_after(set, last));
    after.min_by_key(|&set| place(set))
}
