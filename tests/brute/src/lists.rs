//! Opening and lockout lists, cut sets, least sums and marks, by going through all subsets (01,
//! "Lists", "Scores" and "Marks"; 02, point 13; 003, definitions 4 to 6, 8, 19 to 21). Both ways share everything but
//! the items whose subsets are taken and the rule that spreads them.

use crate::setup::{holds, single, within, PLACES};
use std::cell::OnceCell;

/// The least sum over a list: "never", if the list is empty, is above every number and equal to
/// itself. (The order of the variants is the order of the values.)
#[derive(Clone, Copy, Debug, PartialEq, Eq, PartialOrd, Ord)]
pub enum Least {
    /// The least sum.
    Sum(u64),
    /// The list is empty.
    Never,
}

/// How a handed-in list counts.
#[derive(Clone, Copy, Debug, Default, PartialEq, Eq)]
pub struct Marks {
    /// Equal to an earlier one.
    pub repeated: usize,
    /// An item outside the starting (losable) ones, or not opening (locking out).
    pub shut: usize,
    /// A proper subset does the same.
    pub loose: usize,
    /// On the list.
    pub right: usize,
    /// List length less right.
    pub missing: usize,
}

impl Marks {
    /// Full: repeated, shut, loose and missing are 0.
    pub fn full(&self) -> bool {
        self.repeated == 0 && self.shut == 0 && self.loose == 0 && self.missing == 0
    }
}

/// For each subset of some items, what it opens (or locks out). Subset number k has the j-th
/// of the items, rising, exactly when bit j of k is set, so that subsets stand in the order of
/// their set numbers.
pub struct Table {
    members: Vec<(usize, u64)>,
    reached: Vec<u64>,
    /// One for each target, made when first asked for.
    lists: Vec<OnceCell<Vec<u64>>>,
    cuts: Vec<OnceCell<Vec<u64>>>,
}

impl Table {
    /// The table of the items `members`, rising and with their values, where `spread` tells
    /// what a set opens (or locks out).
    pub fn new(members: Vec<(usize, u64)>, spread: impl Fn(u64) -> u64) -> Table {
        let lists = vec![OnceCell::new(); PLACES];
        let mut table = Table { members, reached: Vec::new(), cuts: lists.clone(), lists };
        let subsets = 1usize << table.members.len();
        table.reached = (0..subsets).map(|number| spread(table.set(number))).collect();
        table
    }

    /// The subset with a number, as a set of items.
    fn set(&self, number: usize) -> u64 {
        let taken = (0..self.members.len()).filter(|&place| number >> place & 1 == 1);
        taken.fold(0, |set, place| set | single(self.members[place].0))
    }

    /// The number of a subset; `None` if it has an item outside the members.
    fn number(&self, set: u64) -> Option<usize> {
        let all = self.set(self.reached.len() - 1);
        let places = (0..self.members.len()).filter(|&place| holds(set, self.members[place].0));
        within(set, all).then(|| places.fold(0, |number, place| number | 1 << place))
    }

    fn reaches(&self, number: usize, target: usize) -> bool {
        holds(self.reached[number], target)
    }

    /// Whether some proper subset of a subset reaches the target.
    fn proper_subset_reaches(&self, number: usize, target: usize) -> bool {
        some_proper_subset(number, |subset| self.reaches(subset, target))
    }

    /// The list: the sets that reach the target, no proper subset doing so; fewer items first,
    /// then the smaller set number.
    pub fn list(&self, target: usize) -> &[u64] {
        self.lists[target].get_or_init(|| self.make_list(target))
    }

    fn make_list(&self, target: usize) -> Vec<u64> {
        self.smallest(|number| self.reaches(number, target))
    }

    /// The sets that do something which no proper subset of them does, in the lists' order.
    fn smallest(&self, does: impl Fn(usize) -> bool) -> Vec<u64> {
        let least = |&number: &usize| does(number) && !some_proper_subset(number, &does);
        let minimal = (0..self.reached.len()).filter(least);
        let mut list: Vec<u64> = minimal.map(|number| self.set(number)).collect();
        list.sort_by_key(|set| (set.count_ones(), *set));
        list
    }

    /// The smallest cut sets (02, point 13): sets of members without which the rest of the members
    /// don't reach the target. The items of the set stay where they are, and the rest may reach them.
    pub fn cuts(&self, target: usize) -> &[u64] {
        let all = self.reached.len() - 1;
        let make = || self.smallest(|number| !self.reaches(all - number, target));
        self.cuts[target].get_or_init(make)
    }

    /// The smallest sets of members that have an item in common with each of the sets.
    pub fn meeting(&self, sets: &[u64]) -> Vec<u64> {
        self.smallest(|number| sets.iter().all(|set| set & self.set(number) != 0))
    }

    /// The sum of the values of a set's items.
    pub fn sum(&self, set: u64) -> u64 {
        let inside = self.members.iter().filter(|(item, _)| holds(set, *item));
        inside.map(|(_, value)| value).sum()
    }

    /// The least sum over the list.
    pub fn least(&self, target: usize) -> Least {
        let sums = self.list(target).iter().map(|&set| self.sum(set));
        sums.min().map_or(Least::Never, Least::Sum)
    }

    /// The least sum over all subsets that reach the target, listed or not. It is the same
    /// number, which the tests of this crate hold against [`Table::least`].
    pub fn least_of_all(&self, target: usize) -> Least {
        let reaching = (0..self.reached.len()).filter(|&number| self.reaches(number, target));
        let sums = reaching.map(|number| self.sum(self.set(number)));
        sums.min().map_or(Least::Never, Least::Sum)
    }

    /// The marks of a handed-in list of any set numbers.
    pub fn marks(&self, target: usize, handed: &[u64]) -> Marks {
        let mut marks = Marks::default();
        for (place, &set) in handed.iter().enumerate() {
            let number = self.number(set).filter(|&number| self.reaches(number, target));
            if handed[..place].contains(&set) {
                marks.repeated += 1;
            } else if let Some(number) = number {
                if self.proper_subset_reaches(number, target) {
                    marks.loose += 1;
                } else {
                    marks.right += 1;
                }
            } else {
                marks.shut += 1;
            }
        }
        marks.missing = self.list(target).len() - marks.right;
        marks
    }
}

/// Whether some proper subset of a subset does something.
fn some_proper_subset(number: usize, does: impl Fn(usize) -> bool) -> bool {
    let mut subset = number;
    while subset != 0 {
        subset = (subset - 1) & number;
        if does(subset) {
            return true;
        }
    }
    false
}
