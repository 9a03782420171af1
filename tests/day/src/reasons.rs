//! Reads what `why` prints and follows every step on the sheet. Nothing of the way in is worked out
//! here: a step is held to its row, and to what stands before it.

use crate::lines;
use crate::twin::Twin;
use brute::setup::{holds, items_of, single, within};

/// What is wrong with a reason.
pub type Fault = String;

struct Reader<'a> {
    twin: &'a Twin,
    target: usize,
    lock: bool,
}

/// Holds the reasons of some sets to the sheet.
pub fn follow(
    twin: &Twin,
    target: usize,
    lock: bool,
    sets: &[u64],
    text: &str,
) -> Result<(), Fault> {
    let reader = Reader { twin, target, lock };
    let mut blocks: Vec<String> = Vec::new();
    for line in text.lines() {
        match blocks.last_mut() {
            Some(block) if line.starts_with("  ") => *block += &format!("{line}\n"),
            _ => blocks.push(format!("{line}\n")),
        }
    }
    if blocks.len() != sets.len() {
        return Err(format!("{} reasons for {} sets", blocks.len(), sets.len()));
    }
    for (place, (block, &set)) in blocks.iter().zip(sets).enumerate() {
        let earlier = sets[..place].iter().position(|&other| other == set);
        reader.block(block, set, earlier).map_err(|fault| format!("{fault}\n{block}"))?;
    }
    Ok(())
}

fn same(what: &str, came: &str, wanted: &str) -> Result<(), Fault> {
    if came == wanted {
        Ok(())
    } else {
        Err(format!("{what}: {came:?}, wanted {wanted:?}"))
    }
}

impl Reader<'_> {
    fn block(&self, block: &str, set: u64, earlier: Option<usize>) -> Result<(), Fault> {
        let (mark, rest) = block.split_once(": ").ok_or("no mark")?;
        if let Some(place) = earlier {
            same("mark", mark, "repeated")?;
            return same("reason", rest, &format!("the same as set {}\n", place + 1));
        }
        same("mark", mark, self.twin.mark(self.target, self.lock, set))?;
        let name = &self.twin.names[self.target];
        let (begin, names) = (self.begin(set), self.twin.set(set));
        let (sentence, steps) = rest.split_once('\n').ok_or("no sentence")?;
        match mark {
            "shut" => same("reason", rest, &self.twin.shut(self.target, self.lock, set)),
            "right" => {
                let end = if self.lock {
                    "losing less of it does not"
                } else {
                    "nothing less of it does"
                };
                same("sentence", sentence, &format!("{begin} {name}, and {end}"))?;
                self.steps(steps, set)
            }
            _ => {
                let begin = format!("{begin} {name}, but less of it does: ");
                let smaller = sentence.strip_prefix(&begin).ok_or("no smaller set")?;
                let smaller = lines::set(&self.twin.names, smaller).map_err(|_| "no set")?;
                let list = self.twin.list(self.target, self.lock);
                let first = list.iter().find(|&&other| within(other, set));
                if first != Some(&smaller) || smaller == set {
                    return Err(format!("{names}: not the first smaller set"));
                }
                self.steps(steps, smaller)
            }
        }
    }

    fn begin(&self, set: u64) -> String {
        let names = self.twin.set(set);
        if self.lock {
            format!("losing {names} shuts")
        } else {
            format!("{names} opens")
        }
    }

    /// Follows the steps from a set to the target.
    fn steps(&self, text: &str, set: u64) -> Result<(), Fault> {
        let name = &self.twin.names[self.target];
        if holds(set, self.target) {
            return same("steps", text, &format!("  {name} is in the set itself\n"));
        }
        let (mut there, mut last, mut cited) = (set, None, set);
        let mut added = Vec::new();
        for (place, line) in text.lines().enumerate() {
            let step = line.strip_prefix(&format!("  {}. ", place + 1)).ok_or("no number")?;
            let (item, uses) =
                if self.lock { self.loss(step, there)? } else { self.opening(step)? };
            if !within(uses, there) || holds(there, item) {
                return Err(format!("{step}: stands on what is not there, or is there already"));
            }
            there |= single(item);
            cited |= uses;
            added.push(item);
            last = Some(item);
        }
        if last != Some(self.target) {
            return Err("the last step is not the target's".to_string());
        }
        let idle = added.iter().find(|&&item| item != self.target && !holds(cited, item));
        idle.map_or(Ok(()), |&item| Err(format!("{} is not needed", self.twin.names[item])))
    }

    fn named(&self, name: &str) -> Result<usize, Fault> {
        lines::item(&self.twin.names, name).map_err(|_| format!("{name:?} is no item"))
    }

    /// `SET opens ITEM (colour C[, recovery])`: the item, and what it stands on.
    fn opening(&self, step: &str) -> Result<(usize, u64), Fault> {
        let parts: Vec<&str> = step.splitn(4, ' ').collect();
        let [set, verb, item, colour] = parts[..] else { return Err("no step".to_string()) };
        let set = lines::set(&self.twin.names, set).map_err(|_| "no set")?;
        same("verb", verb, if set.count_ones() == 1 { "opens" } else { "open" })?;
        let item = self.named(item)?;
        let by = |&colour: &usize| self.twin.setup().places[item].rows[colour] == set;
        let colours: Vec<usize> = self.twin.colours(item).into_iter().filter(by).collect();
        if colours.iter().any(|&number| self.twin.colour_text(item, number) == colour) {
            Ok((item, set))
        } else {
            Err(format!("{step}: no such colour"))
        }
    }

    /// `ITEM is lost with X (colour C) and Y (colours D, E recovery)`: every colour is told, each with
    /// the lowest of its items that is lost.
    fn loss(&self, step: &str, lost: u64) -> Result<(usize, u64), Fault> {
        let (item, causes) = step.split_once(" is lost with ").ok_or("no step")?;
        let item = self.named(item)?;
        let (mut told, mut uses) = (Vec::new(), 0);
        for cause in causes.split(" and ") {
            let (name, colours) = cause.split_once(' ').ok_or("no cause")?;
            let name = self.named(name)?;
            uses |= single(name);
            let inner = colours.trim_start_matches('(').trim_end_matches(')');
            let many =
                inner.strip_prefix("colours ").map(|list| list.split(", ").collect::<Vec<_>>());
            let list = match many {
                Some(list) if list.len() > 1 => list,
                Some(_) => return Err("colours for one".to_string()),
                None => vec![inner.strip_prefix("colour ").ok_or("no colour")?],
            };
            for one in list {
                let (number, recovery) = match one.split_once([',', ' ']) {
                    Some((number, _)) => (number, true),
                    None => (one, false),
                };
                let colour: usize = number.parse().map_err(|_| "no colour")?;
                let place = &self.twin.setup().places[item];
                let lowest = items_of(place.rows[colour] & lost).next();
                if lowest != Some(name) || recovery != (place.recovery[colour] != 0) {
                    return Err(format!("{step}: colour {colour}"));
                }
                told.push(colour);
            }
        }
        told.sort_unstable();
        if told != self.twin.colours(item) || told.is_empty() {
            return Err(format!("{step}: not all colours"));
        }
        Ok((item, uses))
    }
}
