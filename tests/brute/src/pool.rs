//! Pooling two sheets (02, point 11), on rows as their lines say them.

use crate::setup::{COLOURS, MAX_EDGES, MAX_LOSABLE, MAX_STARTING, PLACES};
use crate::sheet::{self, EDGE_HEADER, ITEM_HEADER};
use std::collections::{BTreeMap, BTreeSet};

/// What pooling answers.
#[derive(Clone, Copy, Debug, PartialEq, Eq)]
pub struct Pooled {
    /// 0 for an answer, else the refusal's number.
    pub number: u64,
    /// The sheet that was refused, 1 or 2; 0 for neither.
    pub sheet: u64,
    /// The line of that refusal.
    pub line: u64,
    /// How many bytes the pooled sheet has.
    pub length: u64,
}

impl Pooled {
    fn refused(number: u64, sheet: u64, line: u64) -> Pooled {
        Pooled { number, sheet, line, length: 0 }
    }

    /// All four, in order.
    pub fn numbers(self) -> Vec<u64> {
        vec![self.number, self.sheet, self.line, self.length]
    }
}

/// A row's fields, as they are written.
type Row = Vec<String>;

/// The rows of an accepted sheet.
struct Rows {
    items: Vec<Row>,
    edges: Vec<Row>,
}

fn rows_of(text: &[u8]) -> Rows {
    let text = std::str::from_utf8(text).expect("an accepted sheet has plain bytes");
    let (items, edges) = text.split_once("\n\n").expect("an accepted sheet has an empty line");
    let rows = |part: &str| {
        let line = |line: &str| line.split(' ').map(str::to_string).collect();
        part.lines().skip(1).map(line).collect()
    };
    Rows { items: rows(items), edges: rows(edges) }
}

/// The new colour of each item in both and each colour of the second sheet's edges into it.
fn renamed(first: &Rows, second: &Rows) -> BTreeMap<(String, usize), usize> {
    let colours_into = |rows: &Rows, name: &str| -> BTreeSet<usize> {
        let into = rows.edges.iter().filter(|edge| edge[1] == name);
        into.map(|edge| edge[2].parse().expect("a colour is a number")).collect()
    };
    let mut new = BTreeMap::new();
    for item in second.items.iter().filter(|item| first.items.iter().any(|x| x[0] == item[0])) {
        let mut used = colours_into(first, &item[0]);
        for colour in colours_into(second, &item[0]) {
            let lowest = (0..).find(|free| !used.contains(free)).expect("some number is free");
            used.insert(lowest);
            new.insert((item[0].clone(), colour), lowest);
        }
    }
    new
}

/// The pooled sheet, or the refusal.
pub fn pooled(first: &[u8], second: &[u8]) -> Result<Vec<u8>, Pooled> {
    for (which, text) in [(1, first), (2, second)] {
        let refused = |no: sheet::Refusal| Pooled::refused(u64::from(no.number), which, no.line);
        sheet::read(text).map_err(refused)?;
    }
    let (first, second) = (rows_of(first), rows_of(second));
    let named = |name: &str| first.items.iter().find(|item| item[0] == name);
    for item in &second.items {
        if named(&item[0]).is_some_and(|other| other[1..] != item[1..]) {
            return Err(Pooled::refused(22, 0, 0));
        }
    }
    let mut items = first.items.clone();
    items.extend(second.items.iter().filter(|item| named(&item[0]).is_none()).cloned());
    let new = renamed(&first, &second);
    let mut edges = first.edges.clone();
    for edge in &second.edges {
        let mut edge = edge.clone();
        let colour = edge[2].parse().expect("a colour is a number");
        if let Some(lowest) = new.get(&(edge[1].clone(), colour)) {
            edge[2] = lowest.to_string();
        }
        edges.push(edge);
    }
    let given = |field: usize| items.iter().filter(|item| item[field] != "-").count();
    let ninth = edges.iter().any(|edge| edge[2].parse::<usize>().is_ok_and(|c| c >= COLOURS));
    let over = items.len() > PLACES || edges.len() > MAX_EDGES;
    if over || given(2) > MAX_STARTING || given(3) > MAX_LOSABLE || ninth {
        return Err(Pooled::refused(23, 0, 0));
    }
    Ok(written(&items, &edges))
}

fn written(items: &[Row], edges: &[Row]) -> Vec<u8> {
    let mut text = ITEM_HEADER.to_vec();
    for item in items {
        text.extend(format!("\n{}", item.join(" ")).bytes());
    }
    text.extend(b"\n\n");
    text.extend(EDGE_HEADER);
    for edge in edges {
        text.extend(format!("\n{}", edge.join(" ")).bytes());
    }
    text.push(b'\n');
    text
}

/// The pooled sheet in a lent buffer: the bytes behind it are as they were, and all are after a
/// refusal.
pub fn pool(first: &[u8], second: &[u8], out: &mut [u8]) -> Pooled {
    match pooled(first, second) {
        Err(refusal) => refusal,
        Ok(text) if out.len() < text.len() => Pooled::refused(24, 0, 0),
        Ok(text) => {
            out[..text.len()].copy_from_slice(&text);
            Pooled { number: 0, sheet: 0, line: 0, length: text.len() as u64 }
        }
    }
}
