//! Random accepted sheets of many shapes.

use super::draft::Draft;
use super::{Rng, SheetCase};
use crate::setup::{
    ACCOUNT, COLOURS, CREDENTIAL, MAX_EDGES, MAX_LOSABLE, MAX_RANK, MAX_STARTING, MAX_VALUE, PLACES,
};

/// How large a random sheet may become.
#[derive(Clone, Copy, Debug)]
pub struct Size {
    /// The least and the most items.
    pub items: (usize, usize),
    /// The most starting items.
    pub starting: usize,
    /// The most losable items.
    pub losable: usize,
}

/// The size of the many: up to 9 starting and 9 losable items.
pub const SMALL: Size = Size { items: (1, 14), starting: 9, losable: 9 };
/// The size at 01's bounds, which its sheets always reach.
pub const LARGE: Size =
    Size { items: (PLACES, PLACES), starting: MAX_STARTING, losable: MAX_LOSABLE };

impl Size {
    fn at_the_bounds(self) -> bool {
        self.items.0 == PLACES
    }

    /// Some of `count` items, at most `most`; half of the time as many as that, and always so at
    /// the bounds.
    fn some_items(self, rng: &mut Rng, count: usize, most: usize) -> Vec<usize> {
        let full = self.at_the_bounds() || rng.chance(1, 2);
        let many = if full { most } else { rng.between(0, most) };
        rng.some_of(count, many)
    }
}

/// How the rows of a shape are made.
pub type Make = fn(&mut Rng, Size) -> Draft;

/// The shapes of random graphs.
pub const SHAPES: &[(&str, Make)] = &[
    ("scattered", scattered),
    ("dense", dense),
    ("ring", ring),
    ("self-loops", self_loops),
    ("chain", chain),
    ("antichain", antichain),
    ("layers", layers),
    ("all recovery", all_recovery),
    ("mixed recovery", mixed_recovery),
    ("zero values", zero_values),
    ("unreachable", unreachable),
    ("no edges", no_edges),
];

/// Accepted sheets of all shapes in turn.
pub fn random_sheets(seed: u64, count: usize) -> impl Iterator<Item = SheetCase> {
    let mut rng = Rng::new(seed);
    (0..count).map(move |number| {
        let (shape, _) = SHAPES[number % SHAPES.len()];
        let draft = random_draft(&mut rng, number);
        SheetCase::accepted(format!("{shape}, {number} of seed {seed}"), draft.text())
    })
}

/// The rows of a random accepted sheet; the number chooses the shape.
pub fn random_draft(rng: &mut Rng, number: usize) -> Draft {
    finished(rng, SHAPES[number % SHAPES.len()].1, SMALL)
}

/// The rows of a sheet at the bounds; the number chooses the shape.
pub fn large_draft(rng: &mut Rng, number: usize) -> Draft {
    finished(rng, SHAPES[number % SHAPES.len()].1, LARGE)
}

/// Sheets at the bounds: 64 items (at most 63 in an antichain), 14 starting ones (or 13 where one
/// must not be reached), 14 losable ones, and many with 256 edges. A brute force report of one
/// takes about a tenth of a second.
pub fn large_sheets(seed: u64, count: usize) -> impl Iterator<Item = SheetCase> {
    let mut rng = Rng::new(seed);
    (0..count).map(move |number| {
        let (shape, make) = SHAPES[number % SHAPES.len()];
        let draft = finished(&mut rng, make, LARGE);
        SheetCase::accepted(format!("large {shape}, {number} of seed {seed}"), draft.text())
    })
}

/// A sheet of a shape with its rows in any order, its items renamed, and within the bounds.
fn finished(rng: &mut Rng, make: Make, size: Size) -> Draft {
    let mut draft = make(rng, size);
    rng.shuffle(&mut draft.edges);
    draft.edges.truncate(MAX_EDGES);
    draft.rename(rng);
    draft
}

/// Items with random kinds, ranks and values, and no edge.
fn items(rng: &mut Rng, size: Size) -> Draft {
    let count = rng.between(size.items.0, size.items.1);
    let mut draft = Draft::of_items(count);
    let accounts = rng.between(1, 4);
    for item in &mut draft.items {
        item.kind = if rng.chance(accounts, 4) { ACCOUNT } else { CREDENTIAL };
        item.rank = rng.below(MAX_RANK as usize + 1) as u64;
    }
    let style = rng.below(4);
    let starting = size.some_items(rng, count, size.starting);
    draft.set_starting(&starting, || random_value(rng, style));
    let losable = size.some_items(rng, count, size.losable);
    draft.set_losable(&losable, || random_value(rng, style));
    draft
}

/// A start or loss value: few different ones so that sums tie, or many, or the largest.
fn random_value(rng: &mut Rng, style: usize) -> u64 {
    match style {
        0 => rng.below(3) as u64,
        1 => rng.below(10) as u64,
        2 => rng.below(MAX_VALUE as usize + 1) as u64,
        _ => *rng.pick(&[0, 1, MAX_VALUE - 1, MAX_VALUE]),
    }
}

/// Adds `many` edges with random ends and colours, of which about a quarter are marked.
fn scatter(rng: &mut Rng, draft: &mut Draft, many: usize, colours: usize) {
    let count = draft.items.len();
    for _ in 0..many {
        let (from, to) = (rng.below(count), rng.below(count));
        draft.add_edge(from, to, rng.below(colours), rng.chance(1, 4));
    }
}

fn scattered(rng: &mut Rng, size: Size) -> Draft {
    let mut draft = items(rng, size);
    let many = rng.below(4 * draft.items.len() + 1);
    let colours = rng.between(1, COLOURS);
    scatter(rng, &mut draft, many, colours);
    draft
}

/// Few colours and rows of many items: conjunctions.
fn dense(rng: &mut Rng, size: Size) -> Draft {
    let mut draft = items(rng, size);
    let colours = rng.between(1, 3);
    let many = 6 * draft.items.len();
    scatter(rng, &mut draft, many, colours);
    draft
}

/// One or two rings through many items, with a few other edges.
fn ring(rng: &mut Rng, size: Size) -> Draft {
    let mut draft = items(rng, size);
    let count = draft.items.len();
    for _ in 0..rng.between(1, 2) {
        let mut order: Vec<usize> = (0..count).collect();
        rng.shuffle(&mut order);
        order.truncate(rng.between(1, count));
        for (place, &from) in order.iter().enumerate() {
            let to = order[(place + 1) % order.len()];
            draft.add_edge(from, to, rng.below(2), rng.chance(1, 5));
        }
    }
    let many = rng.below(count + 1);
    scatter(rng, &mut draft, many, 2);
    draft
}

/// Items that need themselves in some colour, alone or among others.
fn self_loops(rng: &mut Rng, size: Size) -> Draft {
    let mut draft = scattered(rng, size);
    for item in 0..draft.items.len() {
        if rng.chance(2, 3) {
            draft.add_edge(item, item, rng.below(COLOURS), rng.chance(1, 4));
        }
    }
    draft
}

/// A chain through all items, falling, rising or in any order, some links needing a second item.
fn chain(rng: &mut Rng, size: Size) -> Draft {
    let mut draft = items(rng, Size { items: (size.items.0, PLACES), ..size });
    let mut order: Vec<usize> = (0..draft.items.len()).collect();
    match rng.below(3) {
        0 => order.reverse(),
        1 => rng.shuffle(&mut order),
        _ => {}
    }
    for link in order.windows(2) {
        let colour = rng.below(COLOURS);
        draft.add_edge(link[0], link[1], colour, rng.chance(1, 8));
        if rng.chance(1, 5) {
            let second = rng.below(order.len());
            draft.add_edge(second, link[1], colour, rng.chance(1, 8));
        }
        if rng.chance(1, 8) {
            let other = rng.below(order.len());
            draft.add_edge(other, link[1], rng.below(COLOURS), rng.chance(1, 2));
        }
    }
    // A chain opens from its beginning only if that one starts.
    let first = &mut draft.items[order[0]];
    if first.start.is_none()
        && draft.items.iter().filter(|i| i.start.is_some()).count() < size.starting
    {
        draft.items[order[0]].start = Some(1);
    }
    draft
}

/// Long lists of sets none of which lies in another: at least k of m items are needed.
fn antichain(rng: &mut Rng, size: Size) -> Draft {
    let most = size.starting.min(size.losable);
    let many = if size.at_the_bounds() { most } else { rng.between(2, most) };
    let needed = rng.between(1, many);
    let mut draft = at_least(needed, many);
    let style = rng.below(4);
    for item in &mut draft.items {
        item.rank = rng.below(4) as u64;
        item.start = item.start.map(|_| random_value(rng, style));
        item.loss = item.loss.map(|_| random_value(rng, style));
    }
    for edge in &mut draft.edges {
        edge.recovery = rng.chance(1, 10);
    }
    draft
}

/// Items 0 to m - 1 start and can be lost; of them at least k open the last item, and at least
/// m - k + 1 lock out of it. All others are accounts: (i, j) stands for "j of the first i", and
/// "j of the first j" is written out as a row. With k = 7 and m = 14 it has 63 items, and the
/// last one's lists have 3,432 and 3,003 sets.
pub fn at_least(needed: usize, many: usize) -> Draft {
    // The accounts that are needed: (i, j) with 1 <= j < i, as far as (m, k) rests on them.
    let mut accounts = Vec::new();
    for first in 2..=many {
        for part in 1..first.min(needed + 1) {
            if part + (many - first) >= needed {
                accounts.push((first, part));
            }
        }
    }
    let mut draft = Draft::of_items(many + accounts.len());
    let everyone: Vec<usize> = (0..many).collect();
    draft.set_starting(&everyone, || 1);
    draft.set_losable(&everyone, || 1);
    // The items that together stand for "part of the first `first`".
    let row = |first: usize, part: usize| -> Vec<usize> {
        if first == part {
            (0..part).collect()
        } else {
            let place = accounts.iter().position(|&account| account == (first, part));
            place.map(|place| many + place).into_iter().collect()
        }
    };
    for (place, &(first, part)) in accounts.iter().enumerate() {
        let account = many + place;
        draft.items[account].kind = ACCOUNT;
        for from in row(first - 1, part) {
            draft.add_edge(from, account, 0, false);
        }
        if part > 1 {
            for from in row(first - 1, part - 1) {
                draft.add_edge(from, account, 1, false);
            }
        }
        draft.add_edge(first - 1, account, 1, false);
    }
    draft
}

/// Credentials, accounts over them, and accounts over those, as in the paper's figures.
fn layers(rng: &mut Rng, size: Size) -> Draft {
    let mut draft = items(rng, size);
    let count = draft.items.len();
    let bottom = count.div_ceil(2);
    for to in bottom..count {
        draft.items[to].kind = ACCOUNT;
        for colour in 0..rng.between(1, 3) {
            let recovery = colour > 0 && rng.chance(1, 2);
            for _ in 0..rng.between(1, 3) {
                draft.add_edge(rng.below(to), to, colour, recovery);
            }
        }
    }
    draft
}

fn all_recovery(rng: &mut Rng, size: Size) -> Draft {
    let mut draft = layers(rng, size);
    let many = rng.below(draft.items.len() + 1);
    scatter(rng, &mut draft, many, 3);
    for edge in &mut draft.edges {
        edge.recovery = true;
    }
    draft
}

/// Colours of several edges, of which some are marked and some are not.
fn mixed_recovery(rng: &mut Rng, size: Size) -> Draft {
    let mut draft = items(rng, size);
    let count = draft.items.len();
    for to in 0..count {
        for colour in 0..rng.below(3) {
            for place in 0..rng.between(2, 3) {
                draft.add_edge(rng.below(count), to, colour, place == 0 || rng.chance(1, 4));
            }
        }
    }
    draft
}

fn zero_values(rng: &mut Rng, size: Size) -> Draft {
    let mut draft = layers(rng, size);
    let many = rng.below(2 * draft.items.len());
    scatter(rng, &mut draft, many, 3);
    for item in &mut draft.items {
        let keep = rng.chance(1, 4);
        for value in [&mut item.start, &mut item.loss] {
            *value = value.map(|number| if keep { number } else { 0 });
        }
    }
    draft
}

/// Accounts that need an item which neither starts nor opens.
fn unreachable(rng: &mut Rng, size: Size) -> Draft {
    let mut draft = layers(rng, size);
    let lonely = 0;
    draft.items[lonely].start = None;
    draft.edges.retain(|edge| edge.to != lonely);
    for to in 1..draft.items.len() {
        if rng.chance(1, 2) {
            for colour in 0..3 {
                draft.add_edge(lonely, to, colour, rng.chance(1, 3));
            }
        }
    }
    draft
}

fn no_edges(rng: &mut Rng, size: Size) -> Draft {
    items(rng, size)
}
