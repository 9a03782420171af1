//! A setup that lives (02, point 8): calls take an item into the held set, take one out, add an edge
//! with its recovery mark and remove one, named by its ends and colour. A refused call hands the
//! setup back untouched.

use crate::graph;
use crate::setup::{holds, single, Setup, COLOURS, MAX_EDGES};

/// A call that changes a setup. The numbers may be any.
#[derive(Clone, Copy, Debug, PartialEq, Eq, Hash)]
pub enum Edit {
    /// An item is taken into the held set.
    TakeIn(u64),
    /// An item is taken out of it.
    TakeOut(u64),
    /// An edge is added, with its recovery mark.
    Add(Named, bool),
    /// An edge is removed, whatever its mark.
    Remove(Named),
}

/// An edge named by its ends and colour.
#[derive(Clone, Copy, Debug, PartialEq, Eq, Hash)]
pub struct Named {
    /// The needed item.
    pub from: u64,
    /// The item that it leads to.
    pub to: u64,
    /// The colour.
    pub colour: u64,
}

impl Edit {
    /// The setup that the call hands back, or the number of the no, and then it is handed back as it
    /// was. 12, 13 (of both ends); then of an edge 18; of one to add 19 and 7, of one to remove 20.
    pub fn on(self, setup: &Setup) -> Result<Setup, u8> {
        if !setup.well_formed() {
            return Err(12);
        }
        let mut after = setup.clone();
        match self {
            Edit::TakeIn(item) => after.held |= single(ask_13(setup, item)?),
            Edit::TakeOut(item) => after.held &= !single(ask_13(setup, item)?),
            Edit::Add(edge, marked) => add(&mut after, edge, marked)?,
            Edit::Remove(edge) => remove(&mut after, edge)?,
        }
        // What is held now, in the graph which the accepted calls have left.
        after.opened = graph::closure(&after, after.held);
        Ok(after)
    }
}

/// The numbers of a list of calls, each on the setup that came back from the one before it (0 for an
/// accepted one), and the setup in the end.
pub fn run(setup: &Setup, edits: &[Edit]) -> (Vec<u8>, Setup) {
    let mut last = setup.clone();
    let mut numbers = Vec::new();
    for edit in edits {
        match edit.on(&last) {
            Ok(after) => {
                last = after;
                numbers.push(0);
            }
            Err(number) => numbers.push(number),
        }
    }
    (numbers, last)
}

/// Is the item number below the item count?
fn ask_13(setup: &Setup, item: u64) -> Result<usize, u8> {
    if item < setup.count {
        Ok(item as usize)
    } else {
        Err(13)
    }
}

/// The needed item, the item that the edge leads to, and the colour: 13 of both ends, then 18.
fn ask_edge(setup: &Setup, edge: Named) -> Result<(usize, usize, usize), u8> {
    let from = ask_13(setup, edge.from)?;
    let to = ask_13(setup, edge.to)?;
    if edge.colour >= COLOURS as u64 {
        return Err(18);
    }
    Ok((from, to, edge.colour as usize))
}

fn add(setup: &mut Setup, edge: Named, marked: bool) -> Result<(), u8> {
    let (from, to, colour) = ask_edge(setup, edge)?;
    // With either mark: recovery edges stand in the rows too.
    if holds(setup.places[to].rows[colour], from) {
        return Err(19);
    }
    if setup.edges() + 1 > MAX_EDGES {
        return Err(7);
    }
    setup.places[to].rows[colour] |= single(from);
    if marked {
        setup.places[to].recovery[colour] |= single(from);
    }
    Ok(())
}

fn remove(setup: &mut Setup, edge: Named) -> Result<(), u8> {
    let (from, to, colour) = ask_edge(setup, edge)?;
    if !holds(setup.places[to].rows[colour], from) {
        return Err(20);
    }
    setup.places[to].rows[colour] &= !single(from);
    setup.places[to].recovery[colour] &= !single(from);
    Ok(())
}
