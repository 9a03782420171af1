//! Question 12 in Rust, with which the twins of whole calls begin: the setup from its words, then the
//! proved code's questions in its order.

use crate::closing::closure;
use crate::kinds::CHOSEN;
use crate::twin::{Graph, Rows, VERTICES};
use portal::{BLANK, HELD, OPENED};

/// What question 12 looks at, as the proved code has it.
#[derive(Clone, Copy)]
pub struct Whole {
    pub count: usize,
    /// Kind, start, loss and rank.
    vertices: [[u64; 4]; VERTICES],
    pub graph: Graph,
    pub recovery: Graph,
    pub held: u64,
    pub opened: u64,
}

pub const EDGES: u32 = brute::setup::MAX_EDGES as u32;
/// The place of the start value; the loss value stands behind it, then the rank.
pub const START: usize = 1;
const LOSS: usize = 2;
const RANK: usize = 3;

impl Whole {
    fn from_words(words: &[u64]) -> Whole {
        let graph = |from: usize| -> Graph {
            std::array::from_fn(|v| std::array::from_fn(|c| words[from + 8 * v + c]))
        };
        Whole {
            count: words[0] as usize,
            vertices: std::array::from_fn(|v| std::array::from_fn(|i| words[1 + 4 * v + i])),
            graph: graph(257),
            recovery: graph(769),
            held: words[HELD],
            opened: words[OPENED],
        }
    }

    /// The words that say the setup, to the front of a buffer.
    pub fn put(&self, words: &mut [u64]) {
        words[0] = self.count as u64;
        words[1..257].copy_from_slice(self.vertices.as_flattened());
        words[257..769].copy_from_slice(self.graph.as_flattened());
        words[769..HELD].copy_from_slice(self.recovery.as_flattened());
        (words[HELD], words[OPENED]) = (self.held, self.opened);
    }

    /// How many edges there are.
    pub fn edges(&self) -> u32 {
        self.graph.iter().flatten().map(|row| row.count_ones()).sum()
    }

    /// The setup in these words, where question 12 says yes.
    pub fn asked(words: &[u64]) -> Option<Whole> {
        let setup = Whole::from_words(words);
        setup.well_formed().then_some(setup)
    }

    /// The vertices that have a value there.
    pub fn chosen(&self, place: usize) -> u64 {
        let values = self.vertices.iter().enumerate();
        values.filter(|(_, x)| x[place] != BLANK).fold(0, |set, (v, _)| set | 1 << v)
    }

    /// Question 12, in the proved code's order.
    fn well_formed(&self) -> bool {
        if self.count == 0 || self.count > VERTICES {
            return false;
        }
        let below = if self.count < VERTICES { (1 << self.count) - 1 } else { u64::MAX };
        for v in 0..VERTICES {
            let (vertex, used) = (&self.vertices[v], v < self.count);
            let fits = if used { valid(vertex) } else { *vertex == [0, BLANK, BLANK, 0] };
            let bound = if used { below } else { 0 };
            if !fits || !rows_fit(bound, &self.graph[v], &self.recovery[v]) {
                return false;
            }
        }
        self.edges() <= EDGES
            && self.chosen(START).count_ones() as usize <= CHOSEN
            && self.chosen(LOSS).count_ones() as usize <= CHOSEN
            && self.holding_fits(below)
    }

    /// Are only vertices held, and is what is opened what they open? Nothing opens nothing.
    fn holding_fits(&self, below: u64) -> bool {
        if self.held == 0 {
            return self.opened == 0;
        }
        self.held & !below == 0 && closure(&self.graph, self.held).0 == self.opened
    }
}

fn valid(vertex: &[u64; 4]) -> bool {
    let in_range = |value: u64| value == BLANK || value <= brute::setup::MAX_VALUE;
    in_range(vertex[START]) && in_range(vertex[LOSS]) && vertex[RANK] <= 9
}

fn rows_fit(bound: u64, rows: &Rows, recovery: &Rows) -> bool {
    rows.iter().zip(recovery).all(|(row, marked)| row & !bound == 0 && marked & !row == 0)
}
