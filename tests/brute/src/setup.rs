//! The setup as plain data (01, "The sheet"; 02, point 8), and question 12.

use crate::graph;
use std::fmt;

/// Places of a setup, and the most items of a sheet.
pub const PLACES: usize = 64;
/// Colours of an item: 0 to 7.
pub const COLOURS: usize = 8;
/// The most edge rows of a sheet.
pub const MAX_EDGES: usize = 256;
/// The most starting items of a sheet.
pub const MAX_STARTING: usize = 14;
/// The most losable items of a sheet.
pub const MAX_LOSABLE: usize = 14;
/// The largest start or loss value (02, point 5).
pub const MAX_VALUE: u64 = 4_000_000_000;
/// The highest rank.
pub const MAX_RANK: u64 = 9;

/// The kind of a credential, as the sheet writes it.
pub const CREDENTIAL: u8 = b'c';
/// The kind of an account, as the sheet writes it.
pub const ACCOUNT: u8 = b'a';

/// One of a setup's 64 places. The fields are plain numbers, wide enough for malformed ones.
#[derive(Clone, Copy, Debug, PartialEq, Eq)]
pub struct Place {
    /// [`CREDENTIAL`] or [`ACCOUNT`]; any other number is malformed.
    pub kind: u8,
    /// The start value of a starting item; `None` is the sheet's `-`.
    pub start: Option<u64>,
    /// The loss value of a losable item; `None` is the sheet's `-`.
    pub loss: Option<u64>,
    /// The item's rank.
    pub rank: u64,
    /// The needed items, one set a colour.
    pub rows: [u64; COLOURS],
    /// The same, of recovery edges alone.
    pub recovery: [u64; COLOURS],
}

/// A place not in use: kind `c`, `-`, `-`, rank 0 and empty rows.
pub const UNUSED: Place = Place {
    kind: CREDENTIAL,
    start: None,
    loss: None,
    rank: 0,
    rows: [0; COLOURS],
    recovery: [0; COLOURS],
};

/// The item count and 64 places, the held set and what it opens. It has no names.
#[derive(Clone, Debug, PartialEq, Eq)]
pub struct Setup {
    /// The number of items.
    pub count: u64,
    /// Items stand in row order; places behind them are [`UNUSED`] in a well-formed setup.
    pub places: [Place; PLACES],
    /// The items that are held (02, point 8): none after reading.
    pub held: u64,
    /// What they open: nothing after reading.
    pub opened: u64,
}

/// The count, the held set, what it opens, and the places that are not [`UNUSED`], for messages
/// about malformed setups too.
impl fmt::Display for Setup {
    fn fmt(&self, out: &mut fmt::Formatter<'_>) -> fmt::Result {
        writeln!(out, "count {}, held {:#x}, opened {:#x}", self.count, self.held, self.opened)?;
        for (number, place) in self.places.iter().enumerate().filter(|(_, place)| **place != UNUSED)
        {
            let Place { kind, start, loss, rank, rows, recovery } = place;
            writeln!(out, "{number}: kind {kind} start {start:?} loss {loss:?} rank {rank}")?;
            writeln!(out, "    rows {rows:x?} recovery {recovery:x?}")?;
        }
        Ok(())
    }
}

/// The set that holds one item.
pub fn single(item: usize) -> u64 {
    1u64 << item
}

/// Whether a set holds an item.
pub fn holds(set: u64, item: usize) -> bool {
    set & single(item) != 0
}

/// Whether every item of one set is in the other.
pub fn within(set: u64, other: u64) -> bool {
    set & !other == 0
}

/// The items of a set, rising.
pub fn items_of(set: u64) -> impl Iterator<Item = usize> {
    (0..PLACES).filter(move |&item| holds(set, item))
}

/// The set that takes in an item; unchanged if the item's number is above 63.
pub fn take_in(set: u64, item: u64) -> u64 {
    if item < PLACES as u64 {
        set | single(item as usize)
    } else {
        set
    }
}

impl Setup {
    /// 0 items, no place in use and nothing held: what a refused sheet gives.
    pub fn empty() -> Setup {
        Setup { count: 0, places: [UNUSED; PLACES], held: 0, opened: 0 }
    }

    /// The same drawing with nothing held, as a sheet would yield it.
    pub fn nothing_held(&self) -> Setup {
        Setup { held: 0, opened: 0, ..self.clone() }
    }

    /// The items of the setup, as a set. Only for counts up to 64.
    pub fn all_items(&self) -> u64 {
        (0..self.count).fold(0, take_in)
    }

    /// The places in use. Only for counts up to 64.
    pub fn used(&self) -> &[Place] {
        &self.places[..self.count as usize]
    }

    /// The starting items, rising, with their start values.
    pub fn starting(&self) -> Vec<(usize, u64)> {
        let values = self.places.iter().enumerate();
        values.filter_map(|(item, place)| Some((item, place.start?))).collect()
    }

    /// The losable items, rising, with their loss values.
    pub fn losable(&self) -> Vec<(usize, u64)> {
        let values = self.places.iter().enumerate();
        values.filter_map(|(item, place)| Some((item, place.loss?))).collect()
    }

    /// The number of edges.
    pub fn edges(&self) -> usize {
        let rows = self.places.iter().flat_map(|place| place.rows);
        rows.map(|row| row.count_ones() as usize).sum()
    }

    /// The same setup without recovery (02, point 3): the whole colour of a target is taken out if
    /// any edge in it is marked.
    pub fn without_recovery(&self) -> Setup {
        let mut reduced = self.clone();
        for place in &mut reduced.places {
            for colour in 0..COLOURS {
                let marked = (0..PLACES).any(|from| holds(place.recovery[colour], from));
                if marked {
                    place.rows[colour] = 0;
                }
                place.recovery[colour] = 0;
            }
        }
        reduced
    }

    /// Question 12: is the setup one from an accepted sheet and a list of calls that change it (02,
    /// point 8)? Some sheet states the same drawing, and the held items can be taken in one by one,
    /// so that all of them must be items, and what is opened what they open. No sheet's length
    /// stands in the way: the longest sheet that keeps the other bounds has 11,626 bytes.
    pub fn well_formed(&self) -> bool {
        if self.count < 1 || self.count > PLACES as u64 {
            return false;
        }
        let items = self.all_items();
        let (used, unused) = self.places.split_at(self.count as usize);
        used.iter().all(|place| place_in_order(place, items))
            && unused.iter().all(|place| *place == UNUSED)
            && self.starting().len() <= MAX_STARTING
            && self.losable().len() <= MAX_LOSABLE
            && self.edges() <= MAX_EDGES
            && within(self.held, items)
            && self.opened == graph::closure(self, self.held)
    }
}

/// What an item row and the edge rows into it can state, where `items` are the sheet's items.
fn place_in_order(place: &Place, items: u64) -> bool {
    let value_in_range = |value: Option<u64>| value.is_none_or(|number| number <= MAX_VALUE);
    (place.kind == CREDENTIAL || place.kind == ACCOUNT)
        && value_in_range(place.start)
        && value_in_range(place.loss)
        && place.rank <= MAX_RANK
        && (0..COLOURS).all(|colour| {
            within(place.rows[colour], items) && within(place.recovery[colour], place.rows[colour])
        })
}
