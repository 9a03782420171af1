//! Closures, their passes, lost sets, ways in and quick answers on a well-formed setup (01, "Access"
//! and "Loss"; 02, points 2 and 4; 003, definitions 2, 3 and 18). No question is asked here.

use crate::setup::{holds, single, within, Place, Setup, COLOURS};

/// The lowest colour of an item whose row is not empty and lies within the held set.
fn complete_colour(place: &Place, held: u64) -> Option<usize> {
    (0..COLOURS).find(|&colour| place.rows[colour] != 0 && within(place.rows[colour], held))
}

/// Whether an item has at least one colour, and every colour of it has a lost needed item.
fn every_colour_broken(place: &Place, lost: u64) -> bool {
    let mut colours = place.rows.iter().filter(|&&row| row != 0).peekable();
    colours.peek().is_some() && colours.all(|row| row & lost != 0)
}

/// The least set that has `given` and each item that `rule` allows: passes over all items
/// until one adds nothing.
fn least_fixpoint(setup: &Setup, given: u64, rule: fn(&Place, u64) -> bool) -> u64 {
    let mut set = given;
    loop {
        let before = set;
        for (item, place) in setup.used().iter().enumerate() {
            if !holds(set, item) && rule(place, set) {
                set |= single(item);
            }
        }
        if set == before {
            return set;
        }
    }
}

/// The closure: all items with a derivation from `held`.
pub fn closure(setup: &Setup, held: u64) -> u64 {
    least_fixpoint(setup, held, |place, set| complete_colour(place, set).is_some())
}

/// The number of passes of a closure (02, point 4): a pass adds together all items that the set at
/// its beginning allows, and the one that adds nothing is counted as well.
pub fn passes(setup: &Setup, held: u64) -> usize {
    let mut beginning = held;
    let mut count = 0;
    loop {
        let places = setup.used().iter().enumerate();
        let allowed = places.filter(|(_, place)| complete_colour(place, beginning).is_some());
        let end = allowed.fold(beginning, |set, (item, _)| set | single(item));
        count += 1;
        if end == beginning {
            return count;
        }
        beginning = end;
    }
}

/// The lost set: all items with a loss derivation from `lost`.
pub fn lost_set(setup: &Setup, lost: u64) -> u64 {
    least_fixpoint(setup, lost, every_colour_broken)
}

/// The way in: while the target isn't held, the lowest-numbered item that can be added, with
/// its lowest complete colour. `None` is "shut".
pub fn way_in(setup: &Setup, held: u64, target: usize) -> Option<Vec<(u8, u8)>> {
    let mut held = held;
    let mut way = Vec::new();
    while !holds(held, target) {
        let mut outside = (0..setup.count as usize).filter(|&item| !holds(held, item));
        let (item, colour) = outside.find_map(|item| {
            let colour = complete_colour(&setup.places[item], held)?;
            Some((item, colour))
        })?;
        held |= single(item);
        way.push((item as u8, colour as u8));
    }
    Some(way)
}

/// Whether a set opens a target, and the items held at the stop (02, point 2): on a yes the given set
/// and those of the way in, on a no the full closure.
pub fn quick(setup: &Setup, held: u64, target: usize) -> (bool, u64) {
    match way_in(setup, held, target) {
        Some(way) => (true, way.iter().fold(held, |set, &(item, _)| set | single(item.into()))),
        None => (false, closure(setup, held)),
    }
}
