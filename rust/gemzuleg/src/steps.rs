//! How a set opens an account, or how its loss shuts it, step by step: the steps that the account needs
//! and no other. Each is followed on the rows of the sheet before it is told.

use crate::lab::{items, within, Lab, Way};
use crate::stop::{answered, hold, Answer};

/// An item that opens, or is lost, and by which items: for an opening one colour with all that it
/// needs, for a loss each colour with its lowest lost item.
pub struct Step {
    /// The item.
    pub item: usize,
    /// The colours, and what is cited of each.
    pub by: Vec<(usize, u64)>,
}

impl Step {
    /// All items that the step stands on.
    fn cited(&self) -> u64 {
        self.by.iter().fold(0, |set, (_, cited)| set | cited)
    }
}

/// The steps from a set to a target that it reaches.
pub fn steps(lab: &Lab, target: usize, way: Way, set: u64) -> Answer<Vec<Step>> {
    let all = match way {
        Way::Open => opening(lab, target, set)?,
        Way::Lock => losing(lab, target, set),
    };
    let needed = needed(all, target, set);
    follow(lab, target, way, set, &needed)?;
    Ok(needed)
}

/// The proved way in.
fn opening(lab: &Lab, target: usize, set: u64) -> Answer<Vec<Step>> {
    let (mut opened, mut colours) = ([0; 64], [0; 64]);
    let way = portal::way_in(&lab.setup, target as u64, set, &mut opened, &mut colours).answered();
    let way = answered(way, "the ways in")?;
    let steps = opened.iter().zip(&colours).take(way.steps as usize);
    let step = |(&item, &colour): (&u8, &u8)| {
        let (item, colour) = (usize::from(item), usize::from(colour));
        Step { item, by: vec![(colour, lab.row(item, colour))] }
    };
    Ok(steps.map(step).collect())
}

/// While the target isn't lost, the lowest item that is lost with what is lost so far.
fn losing(lab: &Lab, target: usize, set: u64) -> Vec<Step> {
    let (mut lost, mut steps) = (set, Vec::new());
    while lost >> target & 1 == 0 {
        let next = (0..lab.count()).filter(|item| lost >> item & 1 == 0);
        let Some(step) = next.filter_map(|item| lost_with(lab, item, lost)).next() else { break };
        lost |= 1 << step.item;
        steps.push(step);
    }
    steps
}

/// The step by which an item is lost, if it has a colour and every one of them has a lost item.
fn lost_with(lab: &Lab, item: usize, lost: u64) -> Option<Step> {
    let lowest = |colour| match lab.row(item, colour) & lost {
        0 => None,
        here => Some((colour, here & here.wrapping_neg())),
    };
    let by: Vec<(usize, u64)> = lab.colours(item).map(lowest).collect::<Option<_>>()?;
    (!by.is_empty()).then_some(Step { item, by })
}

/// The steps without those that the target does not stand on.
fn needed(all: Vec<Step>, target: usize, set: u64) -> Vec<Step> {
    let mut wanted = (1 << target) & !set;
    let mut kept: Vec<Step> = Vec::new();
    for step in all.into_iter().rev() {
        if wanted >> step.item & 1 == 1 {
            wanted |= step.cited() & !set;
            kept.push(step);
        }
    }
    kept.reverse();
    kept
}

/// Each step stands on its row and on what is there before it, and the last one is the target's.
fn follow(lab: &Lab, target: usize, way: Way, set: u64, steps: &[Step]) -> Answer<()> {
    let mut there = set;
    for step in steps {
        let row = |&(colour, cited): &(usize, u64)| match way {
            Way::Open => cited != 0 && cited == lab.row(step.item, colour),
            Way::Lock => cited.is_power_of_two() && within(cited, lab.row(step.item, colour)),
        };
        let whole = way == Way::Open || step.by.len() == lab.colours(step.item).count();
        let stands = whole && step.by.iter().all(row) && within(step.cited(), there);
        hold(stands && !step.by.is_empty(), "the steps")?;
        there |= 1 << step.item;
    }
    hold(there >> target & 1 == 1, "the steps")?;
    hold(within(there, lab.spread(set, way)?), "the steps")
}

/// `(colour 1, recovery)`, `(colours 0, 2 recovery)`.
pub fn colours(lab: &Lab, item: usize, colours: &[usize]) -> String {
    let recovery = |colour: usize| lab.recovery(item, colour) != 0;
    match colours {
        [one] if recovery(*one) => format!("(colour {one}, recovery)"),
        [one] => format!("(colour {one})"),
        many => {
            let name = |&c: &usize| format!("{c}{}", if recovery(c) { " recovery" } else { "" });
            format!("(colours {})", many.iter().map(name).collect::<Vec<_>>().join(", "))
        }
    }
}

/// The steps as lines; `TARGET is in the set itself` where there is none.
pub fn lines(lab: &Lab, target: usize, way: Way, set: u64) -> Answer<Vec<String>> {
    let steps = steps(lab, target, way, set)?;
    if steps.is_empty() {
        return Ok(vec![format!("{} is in the set itself", lab.name(target)?)]);
    }
    let line = |(at, step): (usize, &Step)| Ok(format!("{}. {}", at + 1, said(lab, way, step)?));
    steps.iter().enumerate().map(line).collect()
}

fn said(lab: &Lab, way: Way, step: &Step) -> Answer<String> {
    let item = lab.name(step.item)?;
    if way == Way::Open {
        let opens = if step.cited().count_ones() == 1 { "opens" } else { "open" };
        let by: Vec<usize> = step.by.iter().map(|(colour, _)| *colour).collect();
        let colours = colours(lab, step.item, &by);
        return Ok(format!("{} {opens} {item} {colours}", lab.names(step.cited())?));
    }
    let mut causes: Vec<(u64, Vec<usize>)> = Vec::new();
    for &(colour, cause) in &step.by {
        match causes.iter_mut().find(|(other, _)| *other == cause) {
            Some((_, colours)) => colours.push(colour),
            None => causes.push((cause, vec![colour])),
        }
    }
    let cause = |(cause, by): &(u64, Vec<usize>)| {
        Ok(format!("{} {}", lab.names(*cause)?, colours(lab, step.item, by)))
    };
    let causes: Vec<String> = causes.iter().map(cause).collect::<Answer<_>>()?;
    Ok(format!("{item} is lost with {}", causes.join(" and ")))
}

/// The recovery colours on a way, as `item:colour` joined by `+`.
pub fn recovery_on(lab: &Lab, steps: &[Step]) -> Answer<String> {
    let mut found = Vec::new();
    for step in steps {
        for &(colour, _) in &step.by {
            if lab.recovery(step.item, colour) != 0 {
                found.push(format!("{}:{colour}", lab.name(step.item)?));
            }
        }
    }
    Ok(found.join("+"))
}

/// The lowest item of a set outside of the chosen ones.
pub fn stranger(lab: &Lab, set: u64, way: Way) -> Option<usize> {
    items(set & !lab.chosen(way)).next()
}
