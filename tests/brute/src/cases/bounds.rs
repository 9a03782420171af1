//! The papers' bounds by name: the last sheet within each, and the first beyond; and sums of the
//! largest values.

use super::draft::{joined, Draft};
use super::random::at_least;
use super::{Rng, SheetCase};
use crate::setup::{ACCOUNT, MAX_EDGES, MAX_LOSABLE, MAX_RANK, MAX_STARTING, MAX_VALUE, PLACES};
use crate::sheet::{MAX_BYTES, MAX_NAME};

/// All bounds, each within and beyond.
pub fn bounds() -> Vec<SheetCase> {
    let mut cases = Vec::new();
    cases.extend(item_counts());
    cases.extend(edge_counts());
    cases.extend(value_counts());
    cases.extend(field_ranges());
    cases.extend(name_lengths());
    cases.extend(text_lengths());
    cases.extend(order_at_the_bounds());
    cases
}

/// Reports of the greatest length: lists at their longest, many of them, and the longest rows.
/// The largest has 180,839 rows and 29,414,466 bytes, which takes a second.
pub fn longest_reports() -> Vec<SheetCase> {
    let mut cases = Vec::new();
    for needed in [7, 8] {
        let draft = with_long_rows(at_least(needed, 14));
        cases.push(SheetCase::accepted(format!("{needed} of 14 items"), draft.text()));
    }
    let many = with_long_rows(seven_of_fourteen_many_times());
    cases.push(SheetCase::accepted("7 of 14 items, many times", many.text()));
    // Rows of 275 bytes.
    let one_row = with_long_rows(together(MAX_STARTING, MAX_LOSABLE));
    cases.push(SheetCase::accepted("the longest row", one_row.text()));
    cases
}

/// Sums of the largest values (02, point 5).
pub fn largest_sums() -> Vec<SheetCase> {
    vec![
        SheetCase::accepted("14 of 4,000,000,000", fourteen_largest().text()),
        SheetCase::accepted("4,000,000,000 against two of half", HALVES.into()),
    ]
}

/// Item 14 opens by the first 14 items together. Items 15 and 16 open by any of them, and so
/// item 16 is lost with all 14 alone: seven are its own, and seven those of item 15.
fn fourteen_largest() -> Draft {
    let mut draft = Draft::of_items(17);
    let some: Vec<usize> = (0..14).collect();
    draft.set_starting(&some, || MAX_VALUE);
    draft.set_losable(&some, || MAX_VALUE);
    for account in 14..17 {
        draft.items[account].kind = ACCOUNT;
    }
    for from in 0..7 {
        draft.add_edge(from, 14, 0, false);
        draft.add_edge(from + 7, 14, 0, false);
        draft.add_edge(from, 16, from, false);
        draft.add_edge(from + 7, 15, from, false);
    }
    draft.add_edge(15, 16, 7, false);
    draft
}

/// One item of the largest value, or two of half of it; one of these may be one unit cheaper.
/// A whole and a half together are beyond 2^32.
const HALVES: &str = "name kind start loss rank
whole c 4000000000 4000000000 0
half c 2000000000 2000000000 0
other c 2000000000 2000000000 0
less c 1999999999 1999999999 0
open_level a - - 1
open_less a - - 2
lock_level a - - 3
lock_less a - - 4

from to colour rec
whole open_level 0 0
half open_level 1 0
other open_level 1 0
whole open_less 0 0
half open_less 1 0
less open_less 1 0
whole lock_level 0 0
half lock_level 0 0
whole lock_level 1 0
other lock_level 1 0
whole lock_less 0 0
half lock_less 0 0
whole lock_less 1 0
less lock_less 1 0
";

/// All items as accounts with the longest names and values near the largest, so that sums
/// differ.
fn with_long_rows(mut draft: Draft) -> Draft {
    draft.all_accounts();
    long_names(&mut draft);
    for (number, item) in draft.items.iter_mut().enumerate() {
        item.start = item.start.map(|_| MAX_VALUE - (number / 12) as u64);
        item.loss = item.loss.map(|_| MAX_VALUE);
    }
    draft
}

/// 64 items, of which 28 open by any 7 of the first 14, so that both their lists are at their
/// longest. "At least j" of a group is put together from groups of 4 and 3, by one colour for
/// each way to part j.
fn seven_of_fourteen_many_times() -> Draft {
    let mut draft = Draft::of_items(14);
    let first: Vec<usize> = (0..14).collect();
    draft.set_starting(&first, || 1);
    draft.set_losable(&first, || 1);
    let halves = [0, 7].map(|start| {
        let four = parts_of_items(&mut draft, start..start + 4);
        let three = parts_of_items(&mut draft, start + 4..start + 7);
        let mut half: Vec<Vec<usize>> = (0..7)
            .map(|part| add_account(&mut draft, &ways_to_part(&four, &three, part)))
            .collect();
        half.push((start..start + 7).collect());
        half
    });
    let seven = add_account(&mut draft, &ways_to_part(&halves[0], &halves[1], 7));
    while draft.items.len() < PLACES {
        add_account(&mut draft, std::slice::from_ref(&seven));
    }
    draft
}

/// For each j up to the group's size, the row that stands for "at least j of the group".
fn parts_of_items(draft: &mut Draft, group: std::ops::Range<usize>) -> Vec<Vec<usize>> {
    let subsets = |size: usize| -> Vec<Vec<usize>> {
        let numbers =
            (0u32..1 << group.len()).filter(|number| number.count_ones() as usize == size);
        let members = |number: u32| {
            group.clone().filter(|item| number >> (item - group.start) & 1 == 1).collect()
        };
        numbers.map(members).collect()
    };
    let mut parts: Vec<Vec<usize>> =
        (0..group.len()).map(|part| add_account(draft, &subsets(part))).collect();
    parts.push(group.collect());
    parts
}

/// For each way to part a number, a row of both parts.
fn ways_to_part(one: &[Vec<usize>], other: &[Vec<usize>], number: usize) -> Vec<Vec<usize>> {
    let ways = (0..=number).filter(|&part| part < one.len() && number - part < other.len());
    ways.map(|part| [&one[part][..], &other[number - part]].concat()).collect()
}

/// Adds an account with these rows, one a colour, and gives the row that stands for it. What
/// has an empty row among its ways needs nothing, and no account.
fn add_account(draft: &mut Draft, rows: &[Vec<usize>]) -> Vec<usize> {
    if rows.iter().any(Vec::is_empty) {
        return Vec::new();
    }
    let account = draft.items.len();
    let mut item = draft.items[0].clone();
    (item.start, item.loss) = (None, None);
    draft.items.push(item);
    for (colour, row) in rows.iter().enumerate() {
        for &from in row {
            draft.add_edge(from, account, colour, false);
        }
    }
    vec![account]
}

/// A sheet of accounts in which some items start, some can be lost, and edges go round.
fn filled(items: usize, edges: usize) -> Draft {
    let mut draft = Draft::of_items(items);
    for (number, item) in draft.items.iter_mut().enumerate() {
        item.kind = if number % 3 == 0 { b'c' } else { ACCOUNT };
        item.rank = (number % 10) as u64;
    }
    // The last items too, so that sets with item 63 stand in the lists.
    let some: Vec<usize> = [0, 1, 2, items / 2, items - 2, items - 1].to_vec();
    draft.set_starting(&some, || 3);
    draft.set_losable(&some, || 2);
    let mut rng = Rng::new(items as u64);
    while draft.edges.len() < edges {
        let (from, to) = (rng.below(items), rng.below(items));
        draft.add_edge(from, to, rng.below(4), rng.chance(1, 6));
    }
    draft
}

/// The line of an item row and of an edge row, counted from 0.
fn item_line(item: usize) -> u64 {
    item as u64 + 2
}

fn edge_line(draft: &Draft, edge: usize) -> u64 {
    (draft.items.len() + edge + 4) as u64
}

fn item_counts() -> Vec<SheetCase> {
    let beyond = filled(PLACES + 1, 0);
    vec![
        SheetCase::accepted("1 item", Draft::of_items(1).text()),
        SheetCase::accepted("64 items", filled(PLACES, 120).text()),
        SheetCase::refused("65 items", beyond.text(), 7, item_line(PLACES)),
    ]
}

fn edge_counts() -> Vec<SheetCase> {
    let beyond = filled(20, MAX_EDGES + 1);
    let line = edge_line(&beyond, MAX_EDGES);
    vec![
        SheetCase::accepted("0 edges", filled(20, 0).text()),
        SheetCase::accepted("256 edges", filled(20, MAX_EDGES).text()),
        SheetCase::accepted("256 edges among 64 items", filled(PLACES, MAX_EDGES).text()),
        SheetCase::refused("257 edges", beyond.text(), 7, line),
    ]
}

/// Many starting items open the account behind them together, and all are needed.
fn together(starting: usize, losable: usize) -> Draft {
    let count = starting.max(losable);
    let mut draft = Draft::of_items(count + 2);
    let some: Vec<usize> = (0..starting).collect();
    draft.set_starting(&some, || MAX_VALUE);
    let some: Vec<usize> = (0..losable).collect();
    draft.set_losable(&some, || MAX_VALUE);
    draft.items[count].kind = ACCOUNT;
    draft.items[count + 1].kind = ACCOUNT;
    for from in 0..count {
        draft.add_edge(from, count, 0, false);
        draft.add_edge(from, count + 1, from % 8, from % 2 == 1);
    }
    draft
}

fn value_counts() -> Vec<SheetCase> {
    vec![
        SheetCase::accepted("14 starts", together(MAX_STARTING, 3).text()),
        SheetCase::refused("15 starts", together(MAX_STARTING + 1, 3).text(), 7, item_line(14)),
        SheetCase::accepted("14 losable", together(3, MAX_LOSABLE).text()),
        SheetCase::refused("15 losable", together(3, MAX_LOSABLE + 1).text(), 7, item_line(14)),
        SheetCase::accepted("14 of both", together(MAX_STARTING, MAX_LOSABLE).text()),
        SheetCase::refused("15 of both", together(15, 15).text(), 7, item_line(14)),
    ]
}

fn field_ranges() -> Vec<SheetCase> {
    let colour = |colour| {
        let mut draft = together(2, 2);
        let last = draft.items.len() - 1;
        draft.add_edge(last, 0, colour, true);
        draft
    };
    let last_edge = |draft: &Draft| edge_line(draft, draft.edges.len() - 1);
    let value = |start, loss, rank| {
        let mut draft = together(2, 2);
        draft.items[1].start = Some(start);
        draft.items[1].loss = Some(loss);
        draft.items[1].rank = rank;
        draft.text()
    };
    let line = item_line(1);
    vec![
        SheetCase::accepted("colour 7", colour(7).text()),
        SheetCase::refused("colour 8", colour(8).text(), 5, last_edge(&colour(8))),
        SheetCase::accepted("start 4,000,000,000", value(MAX_VALUE, 1, 0)),
        SheetCase::refused("start 4,000,000,001", value(MAX_VALUE + 1, 1, 0), 5, line),
        SheetCase::accepted("loss 4,000,000,000", value(1, MAX_VALUE, 0)),
        SheetCase::refused("loss 4,000,000,001", value(1, MAX_VALUE + 1, 0), 5, line),
        SheetCase::accepted("values 0", value(0, 0, 0)),
        SheetCase::accepted("rank 9", value(1, 1, MAX_RANK)),
        SheetCase::refused("rank 10", value(1, 1, MAX_RANK + 1), 5, line),
    ]
}

/// Names of 16 letters that differ only at the end.
fn long_names(draft: &mut Draft) {
    for (number, item) in draft.items.iter_mut().enumerate() {
        item.name = format!("a_very_long_nm{number:02}");
    }
}

fn name_lengths() -> Vec<SheetCase> {
    let mut within = together(2, 2);
    long_names(&mut within);
    let mut item_beyond = within.clone();
    item_beyond.items[3].name.push('x');
    // The edge row's own name is too long, and no item's.
    let mut from_beyond = within.lines();
    from_beyond[7].insert(0, b'a');
    let mut to_beyond = within.lines();
    to_beyond[7].insert(MAX_NAME + 1, b'a');
    vec![
        SheetCase::accepted("names of 16", within.text()),
        SheetCase::refused("a name of 17", item_beyond.text(), 5, item_line(3)),
        SheetCase::refused("a from of 17", joined(&from_beyond), 5, 8),
        SheetCase::refused("a to of 17", joined(&to_beyond), 5, 8),
    ]
}

fn text_lengths() -> Vec<SheetCase> {
    // The longest sheet that is accepted: 11,626 bytes.
    let mut longest = filled(PLACES, MAX_EDGES);
    long_names(&mut longest);
    let some: Vec<usize> = (0..14).collect();
    for item in &mut longest.items {
        (item.start, item.loss) = (None, None);
    }
    longest.set_starting(&some, || MAX_VALUE);
    longest.set_losable(&some, || MAX_VALUE);
    // A longer text can't be accepted; at the bound it is its last line that is refused.
    let stretched = |length: usize| {
        let mut text = longest.text();
        text.resize(length - 1, b'x');
        text.push(b'\n');
        text
    };
    let last_line = edge_line(&longest, MAX_EDGES);
    vec![
        SheetCase::accepted("the longest accepted sheet", longest.text()),
        SheetCase::refused("16,384 bytes", stretched(MAX_BYTES), 4, last_line),
        SheetCase::refused("16,385 bytes", stretched(MAX_BYTES + 1), 1, 0),
        SheetCase::refused("65,536 bytes", stretched(65_536), 1, 0),
    ]
}

/// 7 is asked last, of each row as it comes.
fn order_at_the_bounds() -> Vec<SheetCase> {
    let mut same_name = filled(PLACES + 1, 0);
    same_name.items[PLACES].name = "x0".into();
    let mut bad_rank = filled(PLACES + 1, 0);
    bad_rank.items[PLACES].rank = 10;
    let mut start_again = together(15, 3);
    start_again.items[14].name = "x3".into();
    let mut edge_again = filled(20, MAX_EDGES);
    let mut again = edge_again.edges[100];
    again.recovery = !again.recovery;
    edge_again.edges.push(again);
    let mut edge_unknown = filled(20, MAX_EDGES + 1);
    edge_unknown.edges[MAX_EDGES].from = 20;
    let fifteenth_loss_first = {
        let mut draft = together(15, 15);
        draft.items.swap(0, 14);
        draft.items[14].start = None;
        draft
    };
    let edge_row = |draft: &Draft| edge_line(draft, MAX_EDGES);
    vec![
        SheetCase::refused("a 65th item with a known name", same_name.text(), 6, item_line(64)),
        SheetCase::refused("a 65th item of rank 10", bad_rank.text(), 5, item_line(64)),
        SheetCase::refused("a 15th start with a known name", start_again.text(), 6, item_line(14)),
        SheetCase::refused(
            "a 15th losable, 14 starts",
            fifteenth_loss_first.text(),
            7,
            item_line(14),
        ),
        SheetCase::refused("a 257th edge again", edge_again.text(), 9, edge_row(&edge_again)),
        SheetCase::refused("a 257th edge unknown", edge_unknown.text(), 8, edge_row(&edge_unknown)),
    ]
}
