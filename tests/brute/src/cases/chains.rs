//! Sheets and sets of which the number of passes is known by the way they were made (02, point 4).

use super::draft::Draft;
use crate::setup::{single, PLACES};

/// A sheet, a set of its items, and the number of passes of the set's closure.
#[derive(Clone, Debug)]
pub struct PassesCase {
    /// What the case is about.
    pub label: &'static str,
    /// An accepted sheet.
    pub sheet: Vec<u8>,
    /// The given set.
    pub set: u64,
    /// How many passes there are.
    pub passes: usize,
}

/// All cases.
pub fn known_passes() -> Vec<PassesCase> {
    let last = PLACES - 1;
    let all = u64::MAX;
    let forward = || chain(|link| link);
    let backward = || chain(|link| last - link);
    vec![
        // 63 passes add an item each, and one adds nothing: the items outside, and 1.
        case("a chain of 64, the first given", forward(), single(0), PLACES),
        case("a chain against item order, the first given", backward(), single(last), PLACES),
        case("a chain, its middle given", forward(), single(32), 32),
        case("a chain, nothing given", forward(), 0, 1),
        case("a chain, all but the last given", forward(), all & !single(last), 2),
        case("a chain, all given", forward(), all, 1),
        case("a ring of 64, one given", ring(), single(17), PLACES),
        case("63 items that the first opens", star(), single(0), 2),
        case("each item needs itself, one given", loops(), single(5), 1),
        case("two of three links at a time", pairs(), single(0) | single(1), 4),
        case("two colours, complete in different passes", colours(), single(0), 3),
    ]
}

fn case(label: &'static str, draft: Draft, set: u64, passes: usize) -> PassesCase {
    PassesCase { label, sheet: draft.text(), set, passes }
}

/// Each link needs the one before it; `item` tells which item a link is.
fn chain(item: impl Fn(usize) -> usize) -> Draft {
    let mut draft = Draft::of_items(PLACES);
    for link in 1..PLACES {
        draft.add_edge(item(link - 1), item(link), link % 8, false);
    }
    draft
}

fn ring() -> Draft {
    let mut draft = chain(|link| link);
    draft.add_edge(PLACES - 1, 0, 0, false);
    draft
}

fn star() -> Draft {
    let mut draft = Draft::of_items(PLACES);
    (1..PLACES).for_each(|item| draft.add_edge(0, item, item % 8, false));
    draft
}

fn loops() -> Draft {
    let mut draft = Draft::of_items(PLACES);
    (0..PLACES).for_each(|item| draft.add_edge(item, item, 0, false));
    draft
}

/// Items 2 and 3 need 0 and 1 together, 4 and 5 need 2 and 3, and 6 needs 5.
fn pairs() -> Draft {
    let mut draft = Draft::of_items(7);
    for to in 2..6 {
        let first = to / 2 * 2 - 2;
        draft.add_edge(first, to, 0, false);
        draft.add_edge(first + 1, to, 0, false);
    }
    draft.add_edge(5, 6, 0, false);
    draft
}

/// Item 2 needs the given one, or item 1 that it opens; item 3 needs items 1 and 2.
fn colours() -> Draft {
    let mut draft = Draft::of_items(4);
    draft.add_edge(0, 1, 0, false);
    draft.add_edge(1, 2, 3, false);
    draft.add_edge(0, 2, 5, false);
    draft.add_edge(1, 3, 0, false);
    draft.add_edge(2, 3, 0, false);
    draft
}
