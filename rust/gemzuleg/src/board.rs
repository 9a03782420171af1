//! At the board: `why`, `reach`, `lose`.

use crate::lab::{items, within, yes_no, Lab, Way};
use crate::reasons::{self, Reasons};
use crate::stop::{answered, hold, Answer};
use crate::tables::Table;

/// `why`: each set's mark, and why.
pub fn why(lab: &Lab, target: usize, way: Way, sets: &[String]) -> Answer<String> {
    let sets: Vec<u64> = sets.iter().map(|set| lab.set(set)).collect::<Answer<_>>()?;
    let reasons = Reasons::new(lab, target, way)?;
    let mut text = String::new();
    for (&set, mark) in sets.iter().zip(reasons::each(lab, target, way, &sets)?) {
        let reason = reasons.of(set, mark)?;
        text += &format!("{}: {}\n", mark.name(), reason.sentence);
        for line in reason.below {
            text += &format!("  {line}\n");
        }
    }
    Ok(text)
}

/// The items that a set reaches, pass by pass: those of a pass are added together.
fn rounds(lab: &Lab, set: u64, next: impl Fn(usize, u64) -> bool) -> Vec<u64> {
    let (mut there, mut rounds) = (set, vec![set]);
    loop {
        let new = |item: &usize| there >> item & 1 == 0 && next(*item, there);
        let added = (0..lab.count()).filter(new).fold(0, |set, item| set | 1 << item);
        if added == 0 {
            return rounds;
        }
        there |= added;
        rounds.push(added);
    }
}

fn complete(lab: &Lab, item: usize, held: u64) -> Option<usize> {
    lab.colours(item).find(|&colour| within(lab.row(item, colour), held))
}

/// `reach`: what a set opens, in which pass, by which colour.
pub fn reach(lab: &Lab, set: u64) -> Answer<String> {
    let mut table = Table::new("item pass colour needs rec");
    let rounds = rounds(lab, set, |item, held| complete(lab, item, held).is_some());
    let closure = answered(portal::closure(&lab.setup, set).answered(), "what a set opens")?;
    let reached = rounds.iter().fold(0, |set, added| set | added);
    hold((reached, rounds.len() as u64) == (closure.set, closure.passes), "the passes")?;
    let mut held = 0;
    for (pass, &added) in rounds.iter().enumerate() {
        for item in items(added) {
            let (name, pass) = (lab.name(item)?, pass.to_string());
            match complete(lab, item, held) {
                Some(colour) => {
                    let recovery = yes_no(lab.recovery(item, colour) != 0);
                    let needs = lab.names(lab.row(item, colour))?;
                    table.row(&[&name, &pass, &colour.to_string(), &needs, recovery]);
                }
                None => table.row(&[&name, &pass, "-", "-", "-"]),
            }
        }
        held |= added;
    }
    Ok(table.text())
}

/// Has the item a colour, and has every colour lost something?
fn is_lost(lab: &Lab, item: usize, lost: u64) -> bool {
    let mut colours = lab.colours(item).peekable();
    colours.peek().is_some() && colours.all(|colour| lab.row(item, colour) & lost != 0)
}

/// `lose`: what is lost with a set, in which pass, and what each item lacks by then.
pub fn lose(lab: &Lab, set: u64) -> Answer<String> {
    let mut table = Table::new("item pass lacks");
    let rounds = rounds(lab, set, |item, lost| is_lost(lab, item, lost));
    let all = rounds.iter().fold(0, |set, added| set | added);
    hold(all == lab.spread(set, Way::Lock)?, "what is lost")?;
    let mut lost = 0;
    for (pass, &added) in rounds.iter().enumerate() {
        for item in items(added) {
            let rows = lab.colours(item).fold(0, |set, colour| set | lab.row(item, colour));
            table.row(&[&lab.name(item)?, &pass.to_string(), &lab.names(rows & lost)?]);
        }
        lost |= added;
    }
    Ok(table.text())
}
