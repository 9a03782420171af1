//! Pairs of sheets that are pooled (02, point 11): by name, each with the answer that 02's sentences
//! give, and at random over a few names.

use super::draft::{Draft, Item};
use super::Rng;
use crate::setup::{ACCOUNT, CREDENTIAL, MAX_EDGES, MAX_STARTING, MAX_VALUE, PLACES};

/// Two sheets, and the number of the answer where the case is about it.
#[derive(Clone, Debug)]
pub struct PoolCase {
    /// What the case is.
    pub label: String,
    /// The first sheet.
    pub first: Vec<u8>,
    /// The second.
    pub second: Vec<u8>,
    /// The number that 02 gives, for a buffer with room.
    pub number: Option<u64>,
}

fn case(label: &str, first: Draft, second: Draft, number: u64) -> PoolCase {
    PoolCase {
        label: label.to_string(),
        first: first.text(),
        second: second.text(),
        number: Some(number),
    }
}

/// Items with these names, neither starting nor losable.
fn named(names: &[&str]) -> Draft {
    let mut draft = Draft::of_items(names.len());
    for (item, name) in draft.items.iter_mut().zip(names) {
        item.name = name.to_string();
    }
    draft
}

/// Items numbered from `low` on.
fn numbered(low: usize, count: usize) -> Draft {
    let mut draft = Draft::of_items(count);
    for (number, item) in draft.items.iter_mut().enumerate() {
        item.name = format!("n{}", low + number);
    }
    draft
}

/// One item with an edge of each of these colours from it into itself.
fn ring(name: &str, colours: &[usize]) -> Draft {
    let mut draft = named(&[name]);
    for &colour in colours {
        draft.add_edge(0, 0, colour, false);
    }
    draft
}

/// As many edges as there is room for in so many items, all different.
fn full_of_edges(low: usize, items: usize, edges: usize) -> Draft {
    let mut draft = numbered(low, items);
    for number in 0..edges {
        draft.add_edge(number % items, number / items % items, number / (items * items), false);
    }
    draft
}

fn starting(mut draft: Draft, loss: bool) -> Draft {
    for item in &mut draft.items {
        *(if loss { &mut item.loss } else { &mut item.start }) = Some(1);
    }
    draft
}

/// Two names of 16 bytes that differ in the last.
const LONG_NAMES: [&str; 2] = ["a_storeroom_of_1", "a_storeroom_of_2"];

/// The longest sheet, in two halves: 64 names of 16 bytes, 14 starts and losses of 10 digits, and 256
/// edges.
fn longest() -> PoolCase {
    let half = |low: usize| {
        let mut draft = numbered(low, PLACES / 2);
        for (number, item) in draft.items.iter_mut().enumerate() {
            item.name = format!("the_storeroom_{:02}", low + number);
            let value = (number < MAX_STARTING / 2).then_some(MAX_VALUE);
            (item.start, item.loss) = (value, value);
        }
        for number in 0..MAX_EDGES / 2 {
            draft.add_edge(number % 32, number / 32, 0, false);
        }
        draft
    };
    case("the longest sheet", half(0), half(PLACES / 2), 0)
}

/// The cases by name.
pub fn pools() -> Vec<PoolCase> {
    let mut cases = vec![
        case("disjoint", ring("a", &[0]), ring("b", &[0]), 0),
        case("no edges in the second", ring("a", &[0, 1]), named(&["a", "b"]), 0),
        case("no edges in the first", named(&["a"]), ring("a", &[3, 5]), 0),
        case("a sheet with itself", ring("a", &[0, 2]), ring("a", &[0, 2]), 0),
        case("ten colours", ring("a", &[0, 1, 2, 3, 4]), ring("a", &[0, 1, 2, 3, 4]), 23),
        case("eight colours", ring("a", &[0, 1, 2, 3]), ring("a", &[4, 5, 6, 7]), 0),
        case("nine colours", ring("a", &[0, 1, 2, 3]), ring("a", &[0, 1, 2, 3, 4]), 23),
        case("64 items", numbered(0, 40), numbered(39, 25), 0),
        case("65 items", numbered(0, 40), numbered(39, 26), 23),
        case("256 edges", full_of_edges(0, 8, 200), full_of_edges(20, 8, 56), 0),
        case("257 edges", full_of_edges(0, 8, 200), full_of_edges(20, 8, 57), 23),
        case("257 edges, 128 in both", full_of_edges(0, 8, 128), full_of_edges(0, 8, 129), 23),
        case("all edges in both", full_of_edges(0, 8, 128), full_of_edges(0, 8, 128), 0),
        case(
            "names apart in the last byte",
            ring(LONG_NAMES[0], &[0]),
            ring(LONG_NAMES[1], &[0]),
            0,
        ),
        case("a long name in both", ring(LONG_NAMES[0], &[0]), ring(LONG_NAMES[0], &[0]), 0),
        longest(),
    ];
    for loss in [false, true] {
        let what = if loss { "losses" } else { "starts" };
        let half = |low, count| starting(numbered(low, count), loss);
        cases.push(case(&format!("14 {what}, one shared"), half(0, 8), half(7, 7), 0));
        cases.push(case(&format!("15 {what}"), half(0, 8), half(8, 7), 23));
        cases.push(case(&format!("all {what} shared"), half(0, 14), half(0, 14), 0));
    }
    cases.extend(disagreements());
    cases.extend(refusals());
    cases
}

/// Each of the four fields in disagreement, with a bound broken as well.
fn disagreements() -> Vec<PoolCase> {
    let item = |kind, start, loss, rank| {
        let mut draft = numbered(0, PLACES);
        draft.items[1] = Item { name: "shared".to_string(), kind, start, loss, rank };
        draft
    };
    let first = || item(ACCOUNT, Some(0), None, 1);
    let others = [
        ("kind", item(CREDENTIAL, Some(0), None, 1)),
        ("start", item(ACCOUNT, Some(1), None, 1)),
        ("0 and a blank", item(ACCOUNT, None, None, 1)),
        ("loss", item(ACCOUNT, Some(0), Some(0), 1)),
        ("rank", item(ACCOUNT, Some(0), None, 2)),
    ];
    let mut cases = Vec::new();
    for (what, mut other) in others {
        cases.push(case(&format!("{what} disagrees"), first(), other.clone(), 22));
        for (number, item) in other.items.iter_mut().enumerate().filter(|(number, _)| *number != 1)
        {
            item.name = format!("m{number}");
        }
        cases.push(case(&format!("{what} disagrees, and 127 items"), first(), other, 22));
    }
    cases
}

/// One sheet refused, or both.
fn refusals() -> Vec<PoolCase> {
    let good = || ring("a", &[0]).text();
    let bad = || b"name kind start loss rank\na c - - 0\na c - - 0\n".to_vec();
    let long = || vec![b' '; 16_385];
    let of = |label: &str, first, second, number| PoolCase {
        label: label.to_string(),
        first,
        second,
        number: Some(number),
    };
    vec![
        of("the first refused", bad(), good(), 6),
        of("the second refused", good(), bad(), 6),
        of("both refused", long(), bad(), 1),
        of("both refused, the other way", bad(), long(), 6),
        of("the second too long", good(), long(), 1),
        of("nothing", Vec::new(), Vec::new(), 2),
    ]
}

/// A random pair over eight names that begin with the same ten bytes: the fields are made from the
/// name, but for one in thirty; up to 14 edges a sheet, and up to 60 in one of four, so that some
/// pairs need a ninth colour.
pub fn random_pool(rng: &mut Rng, number: usize) -> PoolCase {
    let label = format!("a random pair, {number}");
    let (first, second) = (random_half(rng), random_half(rng));
    PoolCase { label, first: first.text(), second: second.text(), number: None }
}

fn random_half(rng: &mut Rng) -> Draft {
    let mut names: Vec<usize> = (0..8).collect();
    for place in (1..names.len()).rev() {
        names.swap(place, rng.below(place + 1));
    }
    names.truncate(rng.between(1, 8));
    let value = |seed: usize| (seed % 3 != 0).then_some(seed as u64);
    let items = names.iter().map(|&name| {
        let seed = if rng.chance(1, 30) { name + 1 } else { name };
        let kind = if seed % 2 == 0 { ACCOUNT } else { CREDENTIAL };
        let (start, loss) = (value(seed), value(seed + 1));
        Item { name: format!("storeroom_{name}"), kind, start, loss, rank: seed as u64 % 10 }
    });
    let mut draft = Draft { items: items.collect(), edges: Vec::new() };
    let (count, colours) = (draft.items.len(), rng.between(1, 8));
    let edges = if rng.chance(1, 4) { rng.between(20, 60) } else { rng.below(15) };
    for _ in 0..edges {
        let (from, to) = (rng.below(count), rng.below(count));
        draft.add_edge(from, to, rng.below(colours), rng.chance(1, 4));
    }
    draft
}
