//! The calls on a setup, as the product answers them: questions 12 to 17 (and 21) in their order,
//! and lent lists that a refusal leaves as they were.

use crate::bags;
use crate::forecast;
use crate::graph;
use crate::kinds;
use crate::lists::{Least, Marks, Table};
use crate::next;
use crate::setup::{single, within, Setup};
use std::cell::OnceCell;

/// The answer of a way in.
#[derive(Clone, Copy, Debug, PartialEq, Eq)]
pub enum Way {
    /// The target can't be reached; both lists are untouched.
    Shut,
    /// The number of entries written to each list.
    Steps(usize),
}

/// All calls on one setup. Tables are filled when first needed and shared by the calls.
pub struct Calls {
    setup: Setup,
    reduced: Setup,
    well_formed: bool,
    openings: OnceCell<Table>,
    lockouts: OnceCell<Table>,
    openings_without_recovery: OnceCell<Table>,
    lockouts_without_recovery: OnceCell<Table>,
}

impl Calls {
    /// Any setup there can be, malformed ones too: those get 12 from every call.
    pub fn new(setup: &Setup) -> Calls {
        Calls {
            setup: setup.clone(),
            reduced: setup.without_recovery(),
            well_formed: setup.well_formed(),
            openings: OnceCell::new(),
            lockouts: OnceCell::new(),
            openings_without_recovery: OnceCell::new(),
            lockouts_without_recovery: OnceCell::new(),
        }
    }

    /// The setup that the calls are on.
    pub fn setup(&self) -> &Setup {
        &self.setup
    }

    /// Question 12.
    pub fn well_formed(&self) -> bool {
        self.well_formed
    }

    /// What the set opens. 12, 14.
    pub fn closure(&self, set: u64) -> Result<u64, u8> {
        self.ask_12()?;
        self.ask_14(set)?;
        Ok(graph::closure(&self.setup, set))
    }

    /// The number of passes of the set's closure. 12, 14.
    pub fn passes(&self, set: u64) -> Result<usize, u8> {
        self.ask_12()?;
        self.ask_14(set)?;
        Ok(graph::passes(&self.setup, set))
    }

    /// What is lost with the set. 12, 14.
    pub fn lost_set(&self, set: u64) -> Result<u64, u8> {
        self.ask_12()?;
        self.ask_14(set)?;
        Ok(graph::lost_set(&self.setup, set))
    }

    /// The way in from the set to the target: items to one list, colours to the other.
    /// 12, 13, 14, and 15 where the answer isn't "shut".
    pub fn way_in(
        &self,
        set: u64,
        target: u64,
        items: &mut [u8],
        colours: &mut [u8],
    ) -> Result<Way, u8> {
        self.ask_12()?;
        let target = self.ask_13(target)?;
        self.ask_14(set)?;
        let Some(way) = graph::way_in(&self.setup, set, target) else { return Ok(Way::Shut) };
        ask_15(way.len(), items.len())?;
        ask_15(way.len(), colours.len())?;
        for (place, &(item, colour)) in way.iter().enumerate() {
            items[place] = item;
            colours[place] = colour;
        }
        Ok(Way::Steps(way.len()))
    }

    /// Whether the set opens the target, and the items held at the stop. 12, 13, 14.
    pub fn opens(&self, set: u64, target: u64) -> Result<(bool, u64), u8> {
        self.ask_12()?;
        let target = self.ask_13(target)?;
        self.ask_14(set)?;
        Ok(graph::quick(&self.setup, set, target))
    }

    /// Both lists: the opening sets stand first, lockout sets from the next place on; the
    /// answer is both counts. 12, 13, 15.
    pub fn lists(&self, target: u64, lent: &mut [u64]) -> Result<(usize, usize), u8> {
        self.ask_12()?;
        let target = self.ask_13(target)?;
        let opening = self.openings().list(target);
        let lockout = self.lockouts().list(target);
        let both = [opening, lockout].concat();
        ask_15(both.len(), lent.len())?;
        lent[..both.len()].copy_from_slice(&both);
        Ok((opening.len(), lockout.len()))
    }

    /// The opening list alone. 12, 13.
    pub fn opening_list(&self, target: u64) -> Result<&[u64], u8> {
        self.ask_12()?;
        let target = self.ask_13(target)?;
        Ok(self.openings().list(target))
    }

    /// The lockout list alone. 12, 13.
    pub fn lockout_list(&self, target: u64) -> Result<&[u64], u8> {
        self.ask_12()?;
        let target = self.ask_13(target)?;
        Ok(self.lockouts().list(target))
    }

    /// The score by kinds of intruder (02, point 1). 12, 13, 16, 17.
    pub fn kinds(&self, target: u64, list: &[u8]) -> Result<u64, u8> {
        self.ask_12()?;
        let target = self.ask_13(target)?;
        if list.len() as u64 != self.setup.count {
            return Err(16);
        }
        if self.setup.starting().iter().any(|&(item, _)| list[item] >= kinds::KINDS) {
            return Err(17);
        }
        Ok(kinds::score(self.openings().list(target), list))
    }

    /// How many sets the opening list has at most (02, point 10). 12, 13.
    pub fn forecast(&self, target: u64) -> Result<u64, u8> {
        self.ask_12()?;
        let target = self.ask_13(target)?;
        Ok(forecast::forecast(&self.setup, target))
    }

    /// The smallest cut sets (02, point 13), and their number. 12, 13, 15.
    pub fn cut_sets(&self, target: u64, lent: &mut [u64]) -> Result<usize, u8> {
        let cuts = self.cut_list(target)?;
        ask_15(cuts.len(), lent.len())?;
        lent[..cuts.len()].copy_from_slice(cuts);
        Ok(cuts.len())
    }

    /// The list of the smallest cut sets. 12, 13.
    pub fn cut_list(&self, target: u64) -> Result<&[u64], u8> {
        self.ask_12()?;
        let target = self.ask_13(target)?;
        Ok(self.openings().cuts(target))
    }

    /// The bags of the score (02, point 6), each with its highest value first. 12, 13.
    pub fn bag_score(&self, target: u64) -> Result<Vec<Vec<u64>>, u8> {
        let list = self.opening_list(target)?;
        Ok(bags::score(list, |item| self.setup.places[item].start.expect("a starting item")))
    }

    /// The first set of the opening list after the last one shown; `None` is "no more" (02, point
    /// 9). 12, 13, 21.
    pub fn next_opening(&self, target: u64, last: u64) -> Result<Option<u64>, u8> {
        self.ask_12()?;
        let target = self.ask_13(target)?;
        let starting = self.setup.starting().iter().fold(0, |set, &(item, _)| set | single(item));
        if !within(last, starting) {
            return Err(21);
        }
        Ok(next::next(self.openings().list(target), last))
    }

    /// The least sum of start values over the opening list. 12, 13.
    pub fn score(&self, target: u64) -> Result<Least, u8> {
        self.ask_12()?;
        let target = self.ask_13(target)?;
        Ok(self.openings().least(target))
    }

    /// The least sum of loss values over the lockout list. 12, 13.
    pub fn risk(&self, target: u64) -> Result<Least, u8> {
        self.ask_12()?;
        let target = self.ask_13(target)?;
        Ok(self.lockouts().least(target))
    }

    /// The marks of handed-in opening sets. 12, 13.
    pub fn mark_openings(&self, target: u64, handed: &[u64]) -> Result<Marks, u8> {
        self.ask_12()?;
        let target = self.ask_13(target)?;
        Ok(self.openings().marks(target, handed))
    }

    /// The marks of handed-in lockout sets. 12, 13.
    pub fn mark_lockouts(&self, target: u64, handed: &[u64]) -> Result<Marks, u8> {
        self.ask_12()?;
        let target = self.ask_13(target)?;
        Ok(self.lockouts().marks(target, handed))
    }

    /// Backdoor: score below that without recovery. 12, 13.
    pub fn backdoor(&self, item: u64) -> Result<bool, u8> {
        self.ask_12()?;
        let item = self.ask_13(item)?;
        Ok(self.openings().least(item) < self.openings_without_recovery().least(item))
    }

    /// Idle: risk at most that without recovery. 12, 13.
    pub fn idle(&self, item: u64) -> Result<bool, u8> {
        self.ask_12()?;
        let item = self.ask_13(item)?;
        Ok(self.lockouts().least(item) <= self.lockouts_without_recovery().least(item))
    }

    /// Out of rank: rank of `above` above that of `below`, score of `above` at most that of
    /// `below`. 12, then 13 of both.
    pub fn out_of_rank(&self, above: u64, below: u64) -> Result<bool, u8> {
        self.ask_12()?;
        let above = self.ask_13(above)?;
        let below = self.ask_13(below)?;
        let ranks = self.setup.places[above].rank > self.setup.places[below].rank;
        Ok(ranks && self.openings().least(above) <= self.openings().least(below))
    }

    /// The subsets of the starting items and what they open. Only on a well-formed setup.
    pub fn openings(&self) -> &Table {
        self.openings.get_or_init(|| opening_table(&self.setup))
    }

    /// The subsets of the losable items and what they lock out. Only on a well-formed setup.
    pub fn lockouts(&self) -> &Table {
        self.lockouts.get_or_init(|| lockout_table(&self.setup))
    }

    fn openings_without_recovery(&self) -> &Table {
        self.openings_without_recovery.get_or_init(|| opening_table(&self.reduced))
    }

    fn lockouts_without_recovery(&self) -> &Table {
        self.lockouts_without_recovery.get_or_init(|| lockout_table(&self.reduced))
    }

    /// Is the setup one that some accepted sheet yields?
    fn ask_12(&self) -> Result<(), u8> {
        if self.well_formed {
            Ok(())
        } else {
            Err(12)
        }
    }

    /// Is the item number below the item count?
    fn ask_13(&self, item: u64) -> Result<usize, u8> {
        if item < self.setup.count {
            Ok(item as usize)
        } else {
            Err(13)
        }
    }

    /// Has the set only items of the setup?
    fn ask_14(&self, set: u64) -> Result<(), u8> {
        if within(set, self.setup.all_items()) {
            Ok(())
        } else {
            Err(14)
        }
    }
}

/// Is the lent list long enough for what must be written?
fn ask_15(needed: usize, lent: usize) -> Result<(), u8> {
    if needed <= lent {
        Ok(())
    } else {
        Err(15)
    }
}

fn opening_table(setup: &Setup) -> Table {
    Table::new(setup.starting(), |set| graph::closure(setup, set))
}

fn lockout_table(setup: &Setup) -> Table {
    Table::new(setup.losable(), |set| graph::lost_set(setup, set))
}
