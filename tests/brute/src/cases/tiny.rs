//! All tiny graphs: every way to lay edges among a few items in a few colours, with every
//! choice of starting and losable items.

use super::{Rng, SetupCase};
use crate::setup::{single, Place, Setup, ACCOUNT, COLOURS, CREDENTIAL};

/// A family of tiny setups, counted from 0. An index is a number in mixed base: first the state
/// of each possible edge (from, to and colour), then which items start and which can be lost.
#[derive(Clone, Copy, Debug)]
pub struct Tiny {
    items: usize,
    colours: usize,
    /// 2: an edge is there or not. 3: or it is there as a recovery edge.
    edge_states: u64,
}

/// 2 items and 2 colours, edges unmarked: 4,096 setups.
pub const TWO_ITEMS: Tiny = Tiny { items: 2, colours: 2, edge_states: 2 };
/// 3 items and 1 colour, edges unmarked: 32,768 setups.
pub const THREE_ITEMS: Tiny = Tiny { items: 3, colours: 1, edge_states: 2 };
/// 2 items and 2 colours, every edge also as a recovery edge: 104,976 setups.
pub const TWO_ITEMS_MARKED: Tiny = Tiny { items: 2, colours: 2, edge_states: 3 };
/// 3 items and 1 colour, every edge also as a recovery edge: 1,259,712 setups.
pub const THREE_ITEMS_MARKED: Tiny = Tiny { items: 3, colours: 1, edge_states: 3 };

/// 3 items and 2 colours, every edge also as a recovery edge: 24,794,911,296 setups.
pub const THREE_ITEMS_TWO_COLOURS: Tiny = Tiny { items: 3, colours: 2, edge_states: 3 };
/// 4 items and 1 colour, every edge also as a recovery edge: 11,019,960,576 setups.
pub const FOUR_ITEMS: Tiny = Tiny { items: 4, colours: 1, edge_states: 3 };

/// Families to draw from.
pub const FAMILIES: &[Tiny] =
    &[TWO_ITEMS_MARKED, THREE_ITEMS_MARKED, THREE_ITEMS_TWO_COLOURS, FOUR_ITEMS];

impl Tiny {
    /// How many setups there are.
    pub fn count(self) -> u64 {
        let edges = (self.items * self.items * self.colours) as u32;
        self.edge_states.pow(edges) << (2 * self.items)
    }

    /// One of them. The index also settles, by a random generator, what is not gone through one
    /// by one: kinds, ranks, values from 0 to 3, and which of the eight colours are meant.
    pub fn setup(self, index: u64) -> Setup {
        let mut rng = Rng::new(index);
        let colours = rng.some_of(COLOURS, self.colours);
        let mut left = index;
        let mut digit = |base: u64| {
            let digit = left % base;
            left /= base;
            digit
        };
        let mut setup = Setup::empty();
        setup.count = self.items as u64;
        for to in 0..self.items {
            for &colour in &colours {
                for from in 0..self.items {
                    let state = digit(self.edge_states);
                    if state > 0 {
                        setup.places[to].rows[colour] |= single(from);
                    }
                    if state > 1 {
                        setup.places[to].recovery[colour] |= single(from);
                    }
                }
            }
        }
        for place in &mut setup.places[..self.items] {
            *place = Place {
                kind: *rng.pick(&[CREDENTIAL, ACCOUNT, ACCOUNT]),
                start: (digit(2) == 1).then(|| rng.below(4) as u64),
                loss: (digit(2) == 1).then(|| rng.below(4) as u64),
                rank: rng.below(3) as u64,
                rows: place.rows,
                recovery: place.recovery,
            };
        }
        setup
    }

    /// One of them, as a case.
    pub fn case(self, index: u64) -> SetupCase {
        SetupCase { label: format!("{self:?}, index {index}"), setup: self.setup(index) }
    }

    /// Every `stride`-th of them, from the first on.
    pub fn cases(self, stride: u64) -> impl Iterator<Item = SetupCase> {
        let indices = (0..self.count()).step_by(stride as usize);
        indices.map(move |index| self.case(index))
    }
}

/// All graphs of 2 items and 2 colours and of 3 items and 1 colour, with unmarked edges:
/// 36,864 setups.
pub fn all_unmarked() -> impl Iterator<Item = SetupCase> {
    TWO_ITEMS.cases(1).chain(THREE_ITEMS.cases(1))
}

/// The same graphs with every choice of recovery edges, every `stride`-th: 1,364,688 for 1.
/// A stride that shares no factor with 6 meets every state of every edge.
pub fn all_marked(stride: u64) -> impl Iterator<Item = SetupCase> {
    TWO_ITEMS_MARKED.cases(stride).chain(THREE_ITEMS_MARKED.cases(stride))
}
