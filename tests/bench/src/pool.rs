//! Two sheets pooled, against reading both, and against a twin that reads by the proved call and then
//! takes the proved code's steps in plain Rust.

use crate::grid::{micros, ratio, with_commas, Grid};
use crate::kinds::{longest_sheet, CHOSEN, EDGES};
use crate::targets::{against_twin, at_most, Target};
use crate::timing::in_turn;
use crate::twin::{Rows, Setup, VERTICES};
use crate::Rounds;
use brute::cases::draft::{joined, Draft};
use brute::cases::Rng;
use brute::setup::COLOURS;
use portal::{PoolResult, BLANK, POOL_BYTES};
use std::hint::black_box;
use std::ops::Range;

/// The lines of a sheet that are no rows: two headers and the empty line.
const OTHER_LINES: usize = 3;
/// The bytes from the empty line up to the first edge row.
const SECOND_HEADER: usize = 20;
/// A colour is the fourth byte from the end of an edge row with its LF.
const BEHIND: usize = 4;

/// Two sheets that are pooled.
struct Pair {
    name: &'static str,
    first: Vec<u8>,
    second: Vec<u8>,
}

/// A name of at most 16 bytes as a number.
fn key(name: &[u8]) -> u128 {
    name.iter().rev().fold(0, |key, &byte| key << 8 | u128::from(byte))
}

fn line_end(text: &[u8], at: usize) -> usize {
    text[at..].iter().position(|&byte| byte == b'\n').map_or(text.len(), |length| at + length)
}

/// An accepted sheet: its setup, its items' names as numbers, and where each item's row begins.
struct Half<'a> {
    text: &'a [u8],
    words: [u64; portal::WORDS],
    setup: Setup,
    keys: [u128; VERTICES],
    from: [usize; VERTICES + 1],
}

impl Half<'_> {
    fn read(text: &[u8], sheet: u64) -> Result<Half<'_>, PoolResult> {
        let mut words = [0; portal::WORDS];
        let reading = portal::read(text, &mut words);
        if reading.number != 0 {
            return Err(PoolResult {
                number: reading.number,
                sheet,
                line: reading.line,
                length: 0,
            });
        }
        let setup = Setup::from_words(&words);
        let (mut keys, mut from) = ([0; VERTICES], [0; VERTICES + 1]);
        let mut at = line_end(text, 0) + 1;
        for item in 0..setup.count {
            let line = &text[at..line_end(text, at)];
            let name = line.split(|&byte| byte == b' ').next().unwrap_or(line);
            (keys[item], from[item]) = (key(name), at);
            at += line.len() + 1;
        }
        from[setup.count] = at;
        Ok(Half { text, words, setup, keys, from })
    }

    /// The number of the item with this name; the number of items where there is none.
    fn find(&self, name: u128) -> usize {
        let count = self.setup.count;
        self.keys[..count].iter().position(|&key| key == name).unwrap_or(count)
    }

    /// Kind, start, loss and rank.
    fn vertex(&self, item: usize) -> &[u64] {
        &self.words[1 + 4 * item..][..4]
    }

    fn edges(&self) -> usize {
        let lines = self.text.iter().filter(|&&byte| byte == b'\n').count();
        lines - OTHER_LINES - self.setup.count
    }

    /// An item's row with its LF.
    fn row(&self, item: usize) -> &[u8] {
        &self.text[self.from[item]..self.from[item + 1]]
    }

    /// The edge rows, each with its LF.
    fn edge_rows(&self) -> &[u8] {
        &self.text[self.from[self.setup.count] + SECOND_HEADER..]
    }
}

fn lowest_free(taken: u32) -> usize {
    taken.trailing_ones() as usize
}

fn new_colour(first: &Rows, second: &Rows, colour: usize) -> usize {
    let used = |rows: &Rows| (0..COLOURS).filter(|&c| rows[c] != 0).fold(0, |set, c| set | 1 << c);
    let mut taken = used(first);
    for _ in second[..colour].iter().filter(|&&row| row != 0) {
        taken |= 1 << lowest_free(taken);
    }
    lowest_free(taken)
}

/// The colour of an edge row of the second sheet in the pooled one.
fn edge_colour(first: &Half, second: &Half, places: &[usize], line: &[u8]) -> Option<usize> {
    let mut fields = line.split(|&byte| byte == b' ');
    let from = second.find(key(fields.next()?));
    let to = second.find(key(fields.next()?));
    let colour = usize::from(fields.next()?.first()? - b'0');
    if from == second.setup.count || to == second.setup.count {
        return None;
    }
    let place = places[to];
    if place == first.setup.count {
        return Some(colour);
    }
    Some(new_colour(&first.setup.graph[place], &second.setup.graph[to], colour))
}

/// The new colours of the second sheet's edge rows, as digits; none where a ninth colour is needed.
fn digits(first: &Half, second: &Half, places: &[usize]) -> Option<[u8; EDGES]> {
    let mut digits = [0; EDGES];
    let rows = second.edge_rows().split_inclusive(|&byte| byte == b'\n');
    for (digit, row) in digits.iter_mut().zip(rows) {
        let colour = edge_colour(first, second, places, &row[..row.len() - 1])?;
        if colour >= COLOURS {
            return None;
        }
        *digit = b'0' + colour as u8;
    }
    Some(digits)
}

/// Are the pooled rows within the bounds? A shared item counts once.
fn in_bounds(first: &Half, second: &Half, remaining: &[usize]) -> bool {
    let given = |field: usize| {
        let own = (0..first.setup.count).filter(|&item| first.vertex(item)[field] != BLANK);
        let more = remaining.iter().filter(|&&item| second.vertex(item)[field] != BLANK);
        own.count() + more.count()
    };
    first.setup.count + remaining.len() <= VERTICES
        && given(1) <= CHOSEN
        && given(2) <= CHOSEN
        && first.edges() + second.edges() <= EDGES
}

fn refusal(number: u64) -> PoolResult {
    PoolResult { number, sheet: 0, line: 0, length: 0 }
}

/// The twin of the proved call.
fn twin_pool(first: &[u8], second: &[u8], out: &mut [u8]) -> Result<PoolResult, PoolResult> {
    let (first, second) = (Half::read(first, 1)?, Half::read(second, 2)?);
    let (known, count) = (first.setup.count, second.setup.count);
    let mut places = [0; VERTICES];
    for (place, &key) in places.iter_mut().zip(&second.keys[..count]) {
        *place = first.find(key);
    }
    let shared = |item: &usize| places[*item] < known;
    if !(0..count).filter(shared).all(|item| first.vertex(places[item]) == second.vertex(item)) {
        return Err(refusal(22));
    }
    let remaining: Vec<usize> = (0..count).filter(|item| !shared(item)).collect();
    if !in_bounds(&first, &second, &remaining) {
        return Err(refusal(23));
    }
    let digits = digits(&first, &second, &places).ok_or(refusal(23))?;
    let rows: Vec<&[u8]> = remaining.iter().map(|&item| second.row(item)).collect();
    let more: usize = rows.iter().map(|row| row.len()).sum();
    let length = first.text.len() + more + second.edge_rows().len();
    if out.len() < length {
        return Err(refusal(24));
    }
    write_pooled(&first, &second, &rows, &digits, out);
    Ok(PoolResult { number: 0, sheet: 0, line: 0, length: length as u64 })
}

fn write_pooled(first: &Half, second: &Half, rows: &[&[u8]], digits: &[u8], out: &mut [u8]) {
    let (top, rest) = first.text.split_at(first.from[first.setup.count]);
    let mut next = 0;
    for part in [&[top], rows, &[rest]].into_iter().flatten() {
        out[next..next + part.len()].copy_from_slice(part);
        next += part.len();
    }
    let edges = second.edge_rows().split_inclusive(|&byte| byte == b'\n');
    for (row, &digit) in edges.zip(digits) {
        out[next..next + row.len()].copy_from_slice(row);
        next += row.len();
        out[next - BEHIND] = digit;
    }
}

/// Items with names of 16 letters, of which those below 14 are starting and losable, and 128 edges
/// with any ends in four colours.
fn lab(seed: u64, items: Range<usize>) -> Vec<u8> {
    let mut rng = Rng::new(seed);
    let mut draft = Draft::of_items(items.len());
    for (item, number) in draft.items.iter_mut().zip(items.clone()) {
        item.name = format!("storeroom_{number:06}");
        let value = (number < CHOSEN).then_some(1);
        (item.start, item.loss) = (value, value);
    }
    while draft.edges.len() < EDGES / 2 {
        let (from, to) = (rng.below(items.len()), rng.below(items.len()));
        draft.add_edge(from, to, rng.below(COLOURS / 2), rng.chance(1, 6));
    }
    draft.text()
}

/// A sheet with one of another's items, and no edges.
fn one_item_of(sheet: &[u8]) -> Vec<u8> {
    let lines: Vec<&[u8]> = sheet.split(|&byte| byte == b'\n').collect();
    let empty = lines.iter().position(|line| line.is_empty()).expect("a sheet has an empty line");
    joined(&[0, 1, empty, empty + 1].map(|line| lines[line].to_vec()))
}

/// Pairs that are small and at the bounds.
fn pairs() -> [Pair; 6] {
    let first = include_bytes!("../../../examples/first-lab.sheet").to_vec();
    let second = include_bytes!("../../../examples/second-lab.sheet").to_vec();
    let longest = longest_sheet().sheet;
    [
        ("two small labs", first, second),
        ("64 items, all shared", lab(1, 0..64), lab(2, 0..64)),
        ("16 items, all shared", lab(3, 0..16), lab(4, 0..16)),
        ("32 items each, none shared", lab(5, 0..32), lab(6, 32..64)),
        ("the longest sheet, and one item of it", longest.clone(), one_item_of(&longest)),
        ("the longest sheet with itself, 23", longest.clone(), longest),
    ]
    .map(|(name, first, second)| Pair { name, first, second })
}

/// The times of pooling, of the twin, and of reading both sheets.
fn times(pair: &Pair, rounds: usize) -> [f64; 3] {
    let mut words = [0; portal::WORDS];
    let mut out = [[0; POOL_BYTES]; 2];
    let [proved, twin] = &mut out;
    in_turn(
        rounds,
        [
            &mut || {
                black_box(portal::pool(black_box(&pair.first), black_box(&pair.second), proved));
            },
            &mut || {
                black_box(twin_pool(black_box(&pair.first), black_box(&pair.second), twin)).ok();
            },
            &mut || {
                black_box(portal::read(black_box(&pair.first), &mut words));
                black_box(portal::read(black_box(&pair.second), &mut words));
            },
        ],
    )
}

/// Pooling on each pair.
pub fn pooling(rounds: &Rounds, targets: &mut Vec<Target>) -> Grid {
    let header = [
        "sheets",
        "bytes",
        "pooled bytes",
        "reading both, µs",
        "pooling, µs",
        "twin, µs",
        "pooling / reading",
        "proved / twin",
    ];
    let mut grid = Grid::new("Two sheets pooled", &header);
    grid.note(
        "`portal_pool` against `portal_read` of both sheets, which writes the setups' words besides. The twin \
         reads by `portal_read` too, and then takes the proved code's steps in plain Rust. Labs have names of \
         16 letters and 128 edges each in four colours, so that their pooled sheets have 256 edges.",
    );
    let (mut readings, mut twins) = (Vec::new(), Vec::new());
    for pair in pairs() {
        let length = same_answers(&pair);
        let [pooling, twin, reading] = times(&pair, rounds.calls);
        grid.row(vec![
            pair.name.to_string(),
            with_commas((pair.first.len() + pair.second.len()) as u64),
            with_commas(length),
            micros(reading),
            micros(pooling),
            micros(twin),
            ratio(pooling, reading),
            ratio(pooling, twin),
        ]);
        readings.push((pair.name.to_string(), pooling / reading));
        twins.push((pair.name.to_string(), pooling / twin));
    }
    targets.push(at_most("two sheets pooled / reading both", 5.0, &readings));
    targets.push(against_twin("two sheets pooled, proved / twin", &twins));
    grid
}

/// The twin answers and leaves what the proved call does. The length of the pooled sheet.
fn same_answers(pair: &Pair) -> u64 {
    let told = portal::pool(&pair.first, &pair.second, &mut [0; POOL_BYTES]);
    let length = told.length as usize;
    for places in [length.saturating_sub(1), length, POOL_BYTES] {
        let (mut proved, mut twin) = (vec![b'#'; places], vec![b'#'; places]);
        let answer = portal::pool(&pair.first, &pair.second, &mut proved);
        let other = twin_pool(&pair.first, &pair.second, &mut twin);
        assert_eq!(Ok(answer), other.or_else(Ok::<_, PoolResult>), "{}, {places}", pair.name);
        assert_eq!(proved, twin, "{}, {places}", pair.name);
    }
    told.length
}
