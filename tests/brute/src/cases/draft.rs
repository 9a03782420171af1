//! A sheet's rows as data, from which cases are made: written as a text, or as the setup that
//! they state.

use super::Rng;
use crate::setup::{items_of, single, Place, Setup, ACCOUNT, COLOURS, CREDENTIAL, PLACES, UNUSED};
use crate::sheet::{EDGE_HEADER, ITEM_HEADER, MAX_NAME};

/// An item row.
#[derive(Clone, Debug)]
pub struct Item {
    /// The name.
    pub name: String,
    /// The kind, as the sheet writes it.
    pub kind: u8,
    /// The start value; `None` is written `-`.
    pub start: Option<u64>,
    /// The loss value; `None` is written `-`.
    pub loss: Option<u64>,
    /// The rank.
    pub rank: u64,
}

/// An edge row; the ends are item numbers.
#[derive(Clone, Copy, Debug, PartialEq, Eq)]
pub struct Edge {
    /// The needed item.
    pub from: usize,
    /// The item that it leads to.
    pub to: usize,
    /// The colour.
    pub colour: usize,
    /// Whether it is a recovery edge.
    pub recovery: bool,
}

/// Rows in the order in which they are written.
#[derive(Clone, Debug, Default)]
pub struct Draft {
    /// Item rows.
    pub items: Vec<Item>,
    /// Edge rows.
    pub edges: Vec<Edge>,
}

impl Draft {
    /// Items named x0, x1, .. that are neither starting nor losable.
    pub fn of_items(count: usize) -> Draft {
        let blank = |number| Item {
            name: format!("x{number}"),
            kind: CREDENTIAL,
            start: None,
            loss: None,
            rank: 0,
        };
        Draft { items: (0..count).map(blank).collect(), edges: Vec::new() }
    }

    /// Whether an edge has these ends and this colour.
    pub fn has_edge(&self, from: usize, to: usize, colour: usize) -> bool {
        self.edges.iter().any(|edge| (edge.from, edge.to, edge.colour) == (from, to, colour))
    }

    /// Adds an edge, unless it is there.
    pub fn add_edge(&mut self, from: usize, to: usize, colour: usize, recovery: bool) {
        if !self.has_edge(from, to, colour) {
            self.edges.push(Edge { from, to, colour, recovery });
        }
    }

    /// An item row as written.
    pub fn item_line(&self, item: usize) -> String {
        let Item { name, kind, start, loss, rank } = &self.items[item];
        let shown =
            |value: &Option<u64>| value.map_or("-".to_string(), |number| number.to_string());
        format!("{name} {} {} {} {rank}", char::from(*kind), shown(start), shown(loss))
    }

    /// An edge row as written.
    pub fn edge_line(&self, edge: usize) -> String {
        let Edge { from, to, colour, recovery } = self.edges[edge];
        let name = |item: usize| match self.items.get(item) {
            Some(item) => item.name.clone(),
            None => format!("unknown{item}"),
        };
        format!("{} {} {colour} {}", name(from), name(to), u8::from(recovery))
    }

    /// All lines as written, without their LF.
    pub fn lines(&self) -> Vec<Vec<u8>> {
        let mut lines = vec![ITEM_HEADER.to_vec()];
        lines.extend((0..self.items.len()).map(|item| self.item_line(item).into_bytes()));
        lines.push(Vec::new());
        lines.push(EDGE_HEADER.to_vec());
        lines.extend((0..self.edges.len()).map(|edge| self.edge_line(edge).into_bytes()));
        lines
    }

    /// The sheet.
    pub fn text(&self) -> Vec<u8> {
        joined(&self.lines())
    }

    /// The setup that the rows state; only for rows within the bounds.
    pub fn setup(&self) -> Setup {
        let mut setup = Setup::empty();
        setup.count = self.items.len() as u64;
        for (place, item) in setup.places.iter_mut().zip(&self.items) {
            let &Item { kind, start, loss, rank, .. } = item;
            *place = Place { kind, start, loss, rank, ..UNUSED };
        }
        for edge in &self.edges {
            let place = &mut setup.places[edge.to];
            place.rows[edge.colour] |= single(edge.from);
            if edge.recovery {
                place.recovery[edge.colour] |= single(edge.from);
            }
        }
        setup
    }

    /// Rows that state a setup, as far as rows can: the items in use, and every edge that
    /// stands in the rows of any place. A count above 64 is taken as 64.
    pub fn of_setup(setup: &Setup) -> Draft {
        let mut draft = Draft::of_items(setup.count.min(PLACES as u64) as usize);
        for (item, place) in draft.items.iter_mut().zip(&setup.places) {
            let &Place { kind, start, loss, rank, .. } = place;
            *item = Item { name: item.name.clone(), kind, start, loss, rank };
        }
        for (to, place) in setup.places.iter().enumerate() {
            for colour in 0..COLOURS {
                for from in items_of(place.rows[colour]) {
                    let recovery = place.recovery[colour] & single(from) != 0;
                    draft.edges.push(Edge { from, to, colour, recovery });
                }
            }
        }
        draft
    }

    /// Gives all items new names of 1 to 16 letters, all different; many share beginnings.
    pub fn rename(&mut self, rng: &mut Rng) {
        let mut names: Vec<String> = Vec::new();
        while names.len() < self.items.len() {
            let name = random_name(rng, &names);
            if !names.contains(&name) {
                names.push(name);
            }
        }
        for (item, name) in self.items.iter_mut().zip(names) {
            item.name = name;
        }
    }

    /// Makes some items starting ones, with these values.
    pub fn set_starting(&mut self, items: &[usize], mut value: impl FnMut() -> u64) {
        for &item in items {
            self.items[item].start = Some(value());
        }
    }

    /// Makes some items losable, with these values.
    pub fn set_losable(&mut self, items: &[usize], mut value: impl FnMut() -> u64) {
        for &item in items {
            self.items[item].loss = Some(value());
        }
    }

    /// Makes all items accounts, so that all have rows in the report.
    pub fn all_accounts(&mut self) {
        for item in &mut self.items {
            item.kind = ACCOUNT;
        }
    }
}

/// Lines as a text, each ended by LF.
pub fn joined(lines: &[Vec<u8>]) -> Vec<u8> {
    let mut text = Vec::new();
    for line in lines {
        text.extend_from_slice(line);
        text.push(b'\n');
    }
    text
}

/// A setup as a sheet with made-up names, as far as a sheet can state it.
pub fn sheet_of_setup(setup: &Setup) -> Vec<u8> {
    Draft::of_setup(setup).text()
}

/// A name: short, long, made from a header's word, or an earlier one with a letter more or less.
fn random_name(rng: &mut Rng, earlier: &[String]) -> String {
    const LETTERS: &[u8] = b"abcdefghijklmnopqrstuvwxyz0123456789_";
    const WORDS: &[&str] =
        &["name", "kind", "from", "to", "rec", "colour", "c", "a", "0", "1", "_"];
    if rng.chance(1, 12) {
        return rng.pick(WORDS).to_string();
    }
    if !earlier.is_empty() && rng.chance(1, 3) {
        let mut name = rng.pick(earlier).clone();
        if name.len() > 1 && rng.chance(1, 2) {
            name.pop();
        } else if name.len() < MAX_NAME {
            name.push(char::from(*rng.pick(LETTERS)));
        }
        return name;
    }
    let length = if rng.chance(1, 4) { MAX_NAME } else { rng.between(1, 6) };
    (0..length).map(|_| char::from(*rng.pick(LETTERS))).collect()
}
