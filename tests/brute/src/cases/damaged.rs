//! Damaged sheets: an accepted random sheet, one damage aimed at one refusal number, and often
//! rubbish below it, which must not matter. The one who damages knows number and line.

use super::draft::{joined, Draft, Edge, Item};
use super::random::random_draft;
use super::{Rng, SheetCase};
use crate::setup::{CREDENTIAL, MAX_EDGES, MAX_LOSABLE, MAX_STARTING, PLACES};
use crate::sheet::{MAX_BYTES, MAX_NAME};

/// Damaged sheets aimed at the numbers 1 to 11 in turn.
pub fn damaged_sheets(seed: u64, count: usize) -> impl Iterator<Item = SheetCase> {
    let mut rng = Rng::new(seed);
    (0..count).map(move |number| {
        let mut case = damaged_sheet(&mut rng, (number % 11) as u8 + 1);
        case.label = format!("{}, {number} of seed {seed}", case.label);
        case
    })
}

/// A damaged sheet that is refused with this number, 1 to 11.
pub fn damaged_sheet(rng: &mut Rng, number: u8) -> SheetCase {
    let shape = rng.below(100);
    let draft = random_draft(rng, shape);
    match number {
        1 => too_long(rng, &draft),
        2 => not_plain(rng, &draft),
        3 => wrong_header(rng, &draft),
        4 => wrong_fields(rng, &draft),
        5 => wrong_form(rng, &draft),
        6 => name_again(rng, draft),
        7 => beyond_a_bound(rng, draft),
        8 => unknown_name(rng, &draft),
        9 => edge_again(rng, draft),
        10 => no_items(rng, &draft),
        _ => cut_short(rng, &draft),
    }
}

/// A case whose line with index `at` is refused. Half of the time the lines below it are
/// replaced by rubbish.
fn refused_at(
    rng: &mut Rng,
    label: &str,
    mut lines: Vec<Vec<u8>>,
    number: u8,
    at: usize,
) -> SheetCase {
    if rng.chance(1, 2) {
        lines.truncate(at + 1);
        let rubbish =
            ["", " ", "name kind start loss rank", "from to colour rec", "x x 9 9", "~~~"];
        for _ in 0..rng.below(4) {
            lines.push(rng.pick(&rubbish).as_bytes().to_vec());
        }
    }
    SheetCase::refused(label, joined(&lines), number, at as u64 + 1)
}

/// The index of the line with the second header.
fn second_header(draft: &Draft) -> usize {
    draft.items.len() + 2
}

/// The index of some item row, and of some edge row if there is one.
fn some_item_line(rng: &mut Rng, draft: &Draft) -> usize {
    1 + rng.below(draft.items.len())
}

fn some_edge_line(rng: &mut Rng, draft: &Draft) -> Option<usize> {
    (!draft.edges.is_empty()).then(|| second_header(draft) + 1 + rng.below(draft.edges.len()))
}

/// Some row's index, and whether it is an item row.
fn some_row(rng: &mut Rng, draft: &Draft) -> (usize, bool) {
    if rng.chance(1, 2) {
        if let Some(line) = some_edge_line(rng, draft) {
            return (line, false);
        }
    }
    (some_item_line(rng, draft), true)
}

fn too_long(rng: &mut Rng, draft: &Draft) -> SheetCase {
    let mut text = draft.text();
    let filling = *rng.pick(&[b'\n', b'x', b' ', 0, 255]);
    let length = *rng.pick(&[MAX_BYTES + 1, MAX_BYTES + 2, 2 * MAX_BYTES, 70_000]);
    text.resize(length, filling);
    if rng.chance(1, 2) {
        text[length - 1] = b'\n';
    }
    SheetCase::refused("too long", text, 1, 0)
}

fn not_plain(rng: &mut Rng, draft: &Draft) -> SheetCase {
    let mut text = draft.text();
    match rng.below(4) {
        0 => text.clear(),
        1 => {
            text.pop();
        }
        2 => {
            let place = rng.below(text.len());
            text[place] = bad_byte(rng);
        }
        _ => text.insert(rng.below(text.len() + 1), bad_byte(rng)),
    }
    SheetCase::refused("not plain text", text, 2, 0)
}

/// A byte that is neither LF nor one of 32 to 126.
fn bad_byte(rng: &mut Rng) -> u8 {
    let above = rng.between(127, 255) as u8;
    let below = *rng.pick(&[0, 1, 9, 11, 13, 27, 31]);
    *rng.pick(&[below, above, 127, 255])
}

fn wrong_header(rng: &mut Rng, draft: &Draft) -> SheetCase {
    let mut lines = draft.lines();
    let at = *rng.pick(&[0, second_header(draft)]);
    let mut header = lines[at].clone();
    match rng.below(8) {
        0 => header.push(b' '),
        1 => header.insert(0, b' '),
        2 => {
            header.pop();
        }
        3 => {
            let place = rng.below(header.len());
            header[place] = header[place].to_ascii_uppercase().wrapping_add(1).clamp(33, 126);
        }
        4 => {
            let place = header.iter().position(|&byte| byte == b' ').unwrap_or(0);
            header.insert(place, b' ');
        }
        5 => header.clear(),
        6 => header = lines[if at == 0 { second_header(draft) } else { 0 }].clone(),
        _ => header = lines[1].clone(),
    }
    lines[at] = header;
    refused_at(rng, "a wrong header", lines, 3, at)
}

fn wrong_fields(rng: &mut Rng, draft: &Draft) -> SheetCase {
    let mut lines = draft.lines();
    if rng.chance(1, 8) {
        // The items end without the empty line.
        let at = draft.items.len() + 1;
        lines.remove(at);
        return refused_at(rng, "no empty line", lines, 4, at);
    }
    if rng.chance(1, 8) {
        let at = second_header(draft) + 1 + rng.below(draft.edges.len() + 1);
        lines.insert(at, Vec::new());
        return refused_at(rng, "an empty line among edges", lines, 4, at);
    }
    let (at, _) = some_row(rng, draft);
    let row = &mut lines[at];
    let spaces: Vec<usize> = (0..row.len()).filter(|&place| row[place] == b' ').collect();
    let space = *rng.pick(&spaces);
    match rng.below(7) {
        0 => row.insert(0, b' '),
        1 => row.push(b' '),
        2 => row.insert(space, b' '),
        3 => row.truncate(space),
        4 => row.extend_from_slice(b" 0"),
        5 => row[space] = b'_',
        _ => *row = vec![b' '; rng.between(1, 6)],
    }
    refused_at(rng, "wrong fields", lines, 4, at)
}

fn wrong_form(rng: &mut Rng, draft: &Draft) -> SheetCase {
    let mut lines = draft.lines();
    let (at, is_item) = some_row(rng, draft);
    let row = String::from_utf8_lossy(&lines[at]).into_owned();
    let mut fields: Vec<String> = row.split(' ').map(str::to_string).collect();
    let place = rng.below(fields.len());
    fields[place] = match (is_item, place) {
        (true, 0) | (false, 0 | 1) => bad_name(rng, &fields[place]),
        (true, 1) => rng.pick(&["C", "A", "x", "cc", "ca", "-", "0", "b", "d"]).to_string(),
        (true, 2 | 3) => bad_number(rng, &["4000000001", "4294967295", "--", "-1", "0-"]),
        (true, _) => bad_number(rng, &["10", "11", "-", "99"]),
        (false, 2) => bad_number(rng, &["8", "9", "10", "-"]),
        (false, _) => bad_number(rng, &["2", "3", "10", "-", "y"]),
    };
    // 5 comes before 6, 8 and 9: make those a no as well.
    if rng.chance(1, 3) && place != 0 {
        fields[0] = if is_item { draft.items[0].name.clone() } else { "not_here".to_string() };
    }
    lines[at] = fields.join(" ").into_bytes();
    refused_at(rng, "a wrong form", lines, 5, at)
}

fn bad_name(rng: &mut Rng, name: &str) -> String {
    let bad = *rng.pick(b"ABZ-+.:/`{@~");
    let mut bytes = name.as_bytes().to_vec();
    match rng.below(3) {
        0 => {
            let place = rng.below(bytes.len());
            bytes[place] = bad;
        }
        1 => bytes.push(bad),
        _ => bytes.resize(rng.between(MAX_NAME + 1, 40), b'q'),
    }
    String::from_utf8_lossy(&bytes).into_owned()
}

/// One of the given fields, or one that is bad in every numeric field.
fn bad_number(rng: &mut Rng, more: &[&str]) -> String {
    let bad = [
        "00",
        "01",
        "07",
        "+1",
        "-0",
        "1.",
        "0x0",
        "1e1",
        "4294967296",
        "18446744073709551616",
        "18446744073709551617",
        "99999999999999999999999999999999999999999",
    ];
    rng.pick(&[&bad[..], more].concat()).to_string()
}

/// An item row of no weight: it meets no bound but that of the items.
fn plain_item(name: &str) -> Item {
    Item { name: name.to_string(), kind: CREDENTIAL, start: None, loss: None, rank: 0 }
}

fn name_again(rng: &mut Rng, mut draft: Draft) -> SheetCase {
    if rng.chance(1, 4) {
        fill_items(&mut draft, PLACES);
    }
    let at = rng.between(1, draft.items.len());
    let mut again = draft.items[rng.below(at)].clone();
    if rng.chance(1, 2) {
        again = plain_item(&again.name);
    }
    let mut lines = draft.lines();
    let row = Draft { items: vec![again], edges: Vec::new() }.item_line(0);
    lines.insert(at + 1, row.into_bytes());
    refused_at(rng, "a name again", lines, 6, at + 1)
}

/// Adds items with new names until there are `count`.
fn fill_items(draft: &mut Draft, count: usize) {
    let mut number = 0;
    while draft.items.len() < count {
        let name = format!("more{number}");
        number += 1;
        if draft.items.iter().all(|item| item.name != name) {
            draft.items.push(plain_item(&name));
        }
    }
}

fn beyond_a_bound(rng: &mut Rng, mut draft: Draft) -> SheetCase {
    match rng.below(4) {
        0 => {
            fill_items(&mut draft, PLACES + 1 + rng.below(3));
            let lines = draft.lines();
            refused_at(rng, "a 65th item", lines, 7, PLACES + 1)
        }
        1 => {
            fill_items(&mut draft, 40);
            let at = nth_with(rng, &mut draft, MAX_STARTING + 1, |item| &mut item.start);
            let lines = draft.lines();
            refused_at(rng, "a 15th starting item", lines, 7, at + 1)
        }
        2 => {
            fill_items(&mut draft, 40);
            let at = nth_with(rng, &mut draft, MAX_LOSABLE + 1, |item| &mut item.loss);
            let lines = draft.lines();
            refused_at(rng, "a 15th losable item", lines, 7, at + 1)
        }
        _ => {
            fill_items(&mut draft, 12);
            fill_edges(rng, &mut draft, MAX_EDGES + 1);
            let at = second_header(&draft) + 1 + MAX_EDGES;
            let lines = draft.lines();
            refused_at(rng, "a 257th edge", lines, 7, at)
        }
    }
}

/// Gives values to random items until `count` have one; the last of them in row order.
fn nth_with(
    rng: &mut Rng,
    draft: &mut Draft,
    count: usize,
    value: fn(&mut Item) -> &mut Option<u64>,
) -> usize {
    let mut have: Vec<usize> = Vec::new();
    for item in 0..draft.items.len() {
        if value(&mut draft.items[item]).is_some() {
            have.push(item);
        }
    }
    while have.len() < count {
        let item = rng.below(draft.items.len());
        if !have.contains(&item) {
            *value(&mut draft.items[item]) = Some(rng.below(3) as u64);
            have.push(item);
        }
    }
    have.into_iter().max().unwrap_or(0)
}

/// Adds edges until there are `count`.
fn fill_edges(rng: &mut Rng, draft: &mut Draft, count: usize) {
    let items = draft.items.len();
    while draft.edges.len() < count {
        let (from, to) = (rng.below(items), rng.below(items));
        draft.add_edge(from, to, rng.below(8), rng.chance(1, 4));
    }
}

fn unknown_name(rng: &mut Rng, draft: &Draft) -> SheetCase {
    let known = |name: &str| draft.items.iter().any(|item| item.name == name);
    // Near misses of a known name, as far as they have a name's form and are unknown.
    let item = rng.pick(&draft.items).name.clone();
    let mut strange = match rng.below(4) {
        0 => format!("{item}0"),
        1 => item[..item.len() - 1].to_string(),
        2 => format!("_{item}"),
        _ => "not_here".to_string(),
    };
    if strange.is_empty() || strange.len() > MAX_NAME || known(&strange) {
        strange = "nobody_has_this".to_string();
    }
    let (from, to) = match rng.below(3) {
        0 => (strange, item),
        1 => (item, strange),
        _ => (strange.clone(), strange),
    };
    let mut lines = draft.lines();
    let at = second_header(draft) + 1 + rng.below(draft.edges.len() + 1);
    let row = format!("{from} {to} {} {}", rng.below(8), rng.below(2));
    lines.insert(at, row.into_bytes());
    refused_at(rng, "an unknown name", lines, 8, at)
}

fn edge_again(rng: &mut Rng, mut draft: Draft) -> SheetCase {
    if draft.edges.is_empty() {
        draft.add_edge(0, 0, rng.below(8), false);
    }
    if rng.chance(1, 6) {
        fill_items(&mut draft, 12);
        fill_edges(rng, &mut draft, MAX_EDGES);
    }
    let at = rng.between(1, draft.edges.len());
    let mut again: Edge = draft.edges[rng.below(at)];
    again.recovery ^= rng.chance(1, 2);
    draft.edges.insert(at, again);
    let line = second_header(&draft) + 1 + at;
    let lines = draft.lines();
    refused_at(rng, "an edge again", lines, 9, line)
}

fn no_items(rng: &mut Rng, draft: &Draft) -> SheetCase {
    let mut lines = draft.lines();
    if rng.chance(1, 2) {
        lines.insert(1, Vec::new());
    } else {
        lines.drain(1..=draft.items.len());
    }
    refused_at(rng, "no items", lines, 10, 1)
}

fn cut_short(rng: &mut Rng, draft: &Draft) -> SheetCase {
    let mut lines = draft.lines();
    let left = rng.between(1, second_header(draft));
    lines.truncate(left);
    SheetCase::refused("cut short", joined(&lines), 11, left as u64 + 1)
}
