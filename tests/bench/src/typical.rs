//! Typical lab sheets, and what each call takes on them through the interface for C: 10 to 30 items,
//! 3 to 10 of them starting, accounts in layers with one to three ways in, some recovery, some rings.
//! They are drawn at random: our guess at a lab, not a collection of real ones.

use crate::grid::{micros, millis, with_commas, Grid};
use crate::kinds::{Kind, ROOM};
use crate::timing::once;
use brute::cases::draft::Draft;
use brute::cases::Rng;
use std::hint::black_box;

/// How many sheets calls are timed on.
const SHEETS: u64 = 500;
/// How often each call is made on a sheet: the shortest time counts.
const TIMES: usize = 5;
/// A class: so many labs, and so many students who hand in every list of each.
const LABS: u64 = 40;
const STUDENTS: usize = 30;

/// A typical sheet.
pub fn draft(seed: u64) -> Draft {
    let mut rng = Rng::new(seed);
    let items = rng.between(10, 30);
    let starting = rng.between(3, 10.min(items - 3));
    let mut draft = Draft::of_items(items);
    for item in &mut draft.items {
        item.rank = rng.below(6) as u64;
    }
    for item in &mut draft.items[starting..] {
        item.kind = if rng.chance(7, 20) { b'c' } else { b'a' };
    }
    for item in &mut draft.items[..starting] {
        item.kind = b'c';
        item.start = Some(rng.between(1, 9) as u64);
        item.loss = rng.chance(9, 10).then(|| rng.between(1, 9) as u64);
    }
    for to in starting..items {
        for colour in 0..*rng.pick(&[1, 1, 2, 2, 3]) {
            let recovery = colour > 0 && rng.chance(7, 20);
            for _ in 0..*rng.pick(&[1, 1, 2, 2, 3]) {
                // A fifth of the edges may lead back: rings.
                let from = if rng.chance(1, 5) { rng.below(items) } else { rng.below(to) };
                if from != to {
                    draft.add_edge(from, to, colour, recovery);
                }
            }
        }
    }
    draft
}

/// A sheet with both lists of its target.
struct Lab {
    kind: Kind,
    lists: Vec<u64>,
    openings: usize,
}

impl Lab {
    fn new(seed: u64) -> Lab {
        let kind = Kind::new(&format!("lab {seed}"), draft(seed).text());
        let mut lists = vec![0; ROOM];
        let counts = portal::lists(&kind.words, kind.target as u64, &mut lists);
        lists.truncate((counts.openings + counts.lockouts) as usize);
        Lab { kind, lists, openings: counts.openings as usize }
    }

    fn held(&self) -> u64 {
        self.kind.setup.chosen(false)
    }
}

/// Room that calls are lent.
struct Lent {
    sets: Vec<u64>,
    values: Vec<u64>,
    lengths: Vec<u64>,
}

impl Lent {
    fn new() -> Lent {
        Lent { sets: vec![0; ROOM], values: vec![0; 3432 * 14], lengths: vec![0; 3432] }
    }
}

/// The calls by name.
const CALLS: [&str; 14] = [
    "check",
    "closure",
    "opens",
    "forecast",
    "score",
    "risk",
    "lists",
    "cut_sets",
    "next_opening",
    "bag_score",
    "mark_openings",
    "mark_lockouts",
    "backdoor",
    "idle",
];

/// Makes a call on a lab; it is not refused.
fn make(call: &str, lab: &Lab, lent: &mut Lent) {
    let (words, target) = (&lab.kind.words[..], lab.kind.target as u64);
    let number = match call {
        "check" => portal::check(words),
        "closure" => portal::closure(words, lab.held()).number,
        "opens" => portal::opens(words, target, lab.held()).number,
        "forecast" => portal::forecast(words, target).number,
        "score" => portal::setup_score(words, target).number,
        "risk" => portal::setup_risk(words, target).number,
        "lists" => portal::lists(words, target, &mut lent.sets).number,
        "cut_sets" => portal::cut_sets(words, target, &mut lent.sets).number,
        "next_opening" => portal::next_opening(words, target, 0).number,
        "bag_score" => {
            portal::bag_score(words, target, &mut lent.values, &mut lent.lengths).number
        }
        "mark_openings" => portal::mark_openings(words, target, &lab.lists[..lab.openings]).number,
        "mark_lockouts" => portal::mark_lockouts(words, target, &lab.lists[lab.openings..]).number,
        "backdoor" => portal::backdoor(words, target).number,
        "idle" => portal::idle(words, target).number,
        _ => panic!("no call is named {call}: {CALLS:?}"),
    };
    assert_eq!(black_box(number), 0, "{call} refused a typical sheet");
}

/// One call on every typical sheet, once: what an instruction counter is asked about.
pub fn make_once(call: &str) {
    let labs: Vec<Lab> = (1..=SHEETS).map(Lab::new).collect();
    let mut lent = Lent::new();
    labs.iter().for_each(|lab| make(call, lab, &mut lent));
    println!("{call}: made {} times", labs.len());
}

/// Each call on typical sheets: the mean over the sheets, and the longest.
pub fn calls() -> Grid {
    let mut grid = Grid::new("A typical lab, by call", &["call", "mean, µs", "longest, µs"]);
    grid.note(&format!(
        "{} sheets of 10 to 30 items, 3 to 10 of them starting, drawn at random. The target is the item \
         with the longest lists. Of {TIMES} calls on a sheet the shortest counts.",
        with_commas(SHEETS)
    ));
    let labs: Vec<Lab> = (1..=SHEETS).map(Lab::new).collect();
    let mut lent = Lent::new();
    for call in CALLS {
        let mut shortest = |lab: &Lab| {
            let times = (0..TIMES).map(|_| once(|| make(call, lab, &mut lent)));
            times.fold(f64::INFINITY, f64::min)
        };
        let times: Vec<f64> = labs.iter().map(&mut shortest).collect();
        let mean = times.iter().sum::<f64>() / times.len() as f64;
        let longest = times.iter().copied().fold(0.0, f64::max);
        grid.row(vec![call.into(), micros(mean), micros(longest)]);
    }
    grid
}

/// A class hands in both lists of every account of every lab, some of them one set short.
pub fn class() -> Grid {
    let mut grid = Grid::new("A class", &["labs", "students", "lists marked", "ms", "µs a list"]);
    let (mut time, mut marked) = (0.0, 0);
    let mut sets = vec![0; ROOM];
    for seed in 1..=LABS {
        let kind = Kind::new("a lab", draft(seed).text());
        let accounts = (0..kind.setup.count).filter(|&v| kind.words[1 + 4 * v] != 0);
        for target in accounts.map(|v| v as u64) {
            let counts = portal::lists(&kind.words, target, &mut sets);
            let (first, second) = (counts.openings as usize, counts.lockouts as usize);
            for student in 0..STUDENTS {
                let handed = first - usize::from(student % 3 == 1 && first > 0);
                time += once(|| {
                    black_box(portal::mark_openings(&kind.words, target, &sets[..handed]));
                    let lockouts = &sets[first..first + second];
                    black_box(portal::mark_lockouts(&kind.words, target, lockouts));
                });
                marked += 2;
            }
        }
    }
    grid.row(vec![
        LABS.to_string(),
        STUDENTS.to_string(),
        with_commas(marked),
        millis(time),
        micros(time / marked as f64),
    ]);
    grid
}
