//! The mark of each handed-in set, and why: a sentence, and below it what a student can check on the
//! sheet.

use crate::lab::{within, Lab, Way};
use crate::steps;
use crate::stop::{answered, hold, Answer};

/// How a handed-in set counts.
#[derive(Clone, Copy, Debug, PartialEq, Eq)]
pub enum Mark {
    /// On the list.
    Right,
    /// Equal to an earlier one, this from 1 on.
    Repeated(usize),
    /// An item that does not count, or it does not reach the target.
    Shut,
    /// Less of it does.
    Loose,
}

impl Mark {
    /// As tables have it.
    pub fn name(self) -> &'static str {
        match self {
            Mark::Right => "right",
            Mark::Repeated(_) => "repeated",
            Mark::Shut => "shut",
            Mark::Loose => "loose",
        }
    }
}

/// The marks of a handed-in list.
pub fn marks(setup: &[u64], target: usize, way: Way, sets: &[u64]) -> Answer<portal::MarksResult> {
    let marks = match way {
        Way::Open => portal::mark_openings(setup, target as u64, sets),
        Way::Lock => portal::mark_lockouts(setup, target as u64, sets),
    };
    answered(marks.answered(), "the marks")
}

/// The mark of each set of a list, one by one.
pub fn each(lab: &Lab, target: usize, way: Way, sets: &[u64]) -> Answer<Vec<Mark>> {
    let mut found = Vec::with_capacity(sets.len());
    for (at, set) in sets.iter().enumerate() {
        if let Some(earlier) = sets[..at].iter().position(|other| other == set) {
            found.push(Mark::Repeated(earlier + 1));
            continue;
        }
        let alone = marks(&lab.setup, target, way, &[*set])?;
        found.push(match (alone.right, alone.shut, alone.loose) {
            (1, 0, 0) => Mark::Right,
            (0, 1, 0) => Mark::Shut,
            (0, 0, 1) => Mark::Loose,
            _ => return hold(false, "the marks").map(|()| Vec::new()),
        });
    }
    Ok(found)
}

/// Why a set has its mark.
pub struct Reason {
    /// A sentence.
    pub sentence: String,
    /// What it stands on.
    pub below: Vec<String>,
}

/// Asks why sets of one target and way have their marks.
pub struct Reasons<'a> {
    lab: &'a Lab,
    target: usize,
    way: Way,
    list: Vec<u64>,
    name: String,
}

impl<'a> Reasons<'a> {
    /// Of this target and way.
    pub fn new(lab: &'a Lab, target: usize, way: Way) -> Answer<Reasons<'a>> {
        let (list, name) = (lab.list(target, way)?, lab.name(target)?);
        Ok(Reasons { lab, target, way, list, name })
    }

    /// The sets of the list that were not handed in.
    pub fn missing(&self, sets: &[u64]) -> Vec<u64> {
        self.list.iter().filter(|set| !sets.contains(set)).copied().collect()
    }

    /// How this set of the list does it.
    pub fn steps(&self, set: u64) -> Answer<Vec<String>> {
        steps::lines(self.lab, self.target, self.way, set)
    }

    /// Why this set has this mark.
    pub fn of(&self, set: u64, mark: Mark) -> Answer<Reason> {
        match mark {
            Mark::Right => self.right(set),
            Mark::Repeated(earlier) => {
                Ok(Reason { sentence: format!("the same as set {earlier}"), below: Vec::new() })
            }
            Mark::Loose => self.loose(set),
            Mark::Shut => self.shut(set),
        }
    }

    fn right(&self, set: u64) -> Answer<Reason> {
        hold(self.list.contains(&set), "the marks")?;
        let (text, name) = (self.lab.names(set)?, &self.name);
        let sentence = match self.way {
            Way::Open => format!("{text} opens {name}, and nothing less of it does"),
            Way::Lock => format!("losing {text} shuts {name}, and losing less of it does not"),
        };
        Ok(Reason { sentence, below: self.steps(set)? })
    }

    fn loose(&self, set: u64) -> Answer<Reason> {
        let less = |other: &&u64| **other != set && within(**other, set);
        let smaller = self.list.iter().find(less).copied();
        hold(smaller.is_some(), "the marks")?;
        let smaller = smaller.unwrap_or_default();
        let (text, less, name) = (self.lab.names(set)?, self.lab.names(smaller)?, &self.name);
        let sentence = match self.way {
            Way::Open => format!("{text} opens {name}, but less of it does: {less}"),
            Way::Lock => format!("losing {text} shuts {name}, but less of it does: {less}"),
        };
        Ok(Reason { sentence, below: self.steps(smaller)? })
    }

    fn shut(&self, set: u64) -> Answer<Reason> {
        let (lab, name) = (self.lab, &self.name);
        if let Some(stranger) = steps::stranger(lab, set, self.way) {
            let item = lab.name(stranger)?;
            let sentence = match self.way {
                Way::Open => format!("{item} is no starting item: a stranger cannot begin with it"),
                Way::Lock => format!("{item} is no losable item"),
            };
            return Ok(Reason { sentence, below: Vec::new() });
        }
        let reached = lab.spread(set, self.way)?;
        hold(reached >> self.target & 1 == 0, "the marks")?;
        let text = lab.names(set)?;
        let sentence = match self.way {
            Way::Open => format!("{text} does not open {name}"),
            Way::Lock => format!("losing {text} does not shut {name}"),
        };
        let mut below = vec![self.beyond(reached & !set)?];
        below.extend(self.colours(reached)?);
        Ok(Reason { sentence, below })
    }

    /// What a set that does not reach the target reaches instead.
    fn beyond(&self, more: u64) -> Answer<String> {
        Ok(match (self.way, more) {
            (Way::Open, 0) => "it opens nothing".to_string(),
            (Way::Open, more) => format!("it opens {}", self.lab.names(more)?),
            (Way::Lock, 0) => "nothing else is lost with it".to_string(),
            (Way::Lock, more) => format!("{} is lost with it", self.lab.names(more)?),
        })
    }

    /// Of each colour of the target, what it lacks; of a loss, the colours that have lost nothing.
    fn colours(&self, reached: u64) -> Answer<Vec<String>> {
        let (lab, name) = (self.lab, &self.name);
        let mut lines = Vec::new();
        for colour in lab.colours(self.target) {
            let row = lab.row(self.target, colour);
            let takes =
                format!("{} {}", lab.names(row)?, steps::colours(lab, self.target, &[colour]));
            match self.way {
                Way::Open => {
                    let lacking = lab.names(row & !reached)?;
                    lines.push(format!("{name} takes {takes}, and {lacking} is lacking"));
                }
                Way::Lock if row & reached == 0 => {
                    lines.push(format!("{name} keeps its way by {takes}"))
                }
                Way::Lock => {}
            }
        }
        if lab.colours(self.target).next().is_none() {
            lines.push(format!("no arrow leads to {name}"));
        }
        Ok(lines)
    }
}
