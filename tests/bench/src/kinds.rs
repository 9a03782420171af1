//! The kinds of sheets at document 01's bounds on which everything is timed: 64 vertices, all of
//! them accounts, 256 edges, 14 initial and 14 losable vertices.

use crate::twin::{self, Setup, VERTICES, WORDS};
use brute::cases::bounds::{bounds, longest_reports};
use brute::cases::draft::Draft;
use brute::cases::random::at_least;
use brute::cases::Rng;
use portal::BLANK;

/// The most edges of a sheet, and the most initial and the most losable vertices.
pub use brute::setup::{MAX_EDGES as EDGES, MAX_STARTING as CHOSEN};

/// Room for both lists of any target.
pub const ROOM: usize = 2 * 3432;

/// A sheet with its setup in the forms that the calls take.
pub struct Kind {
    /// What kind of sheet it is.
    pub name: String,
    /// The sheet's bytes.
    pub sheet: Vec<u8>,
    /// The setup for the proved calls.
    pub words: Vec<u64>,
    /// The setup for the twin.
    pub setup: Setup,
    /// The vertex with the longest lists.
    pub target: usize,
}

impl Kind {
    /// A sheet that is accepted.
    pub fn new(name: &str, sheet: Vec<u8>) -> Kind {
        let mut words = vec![0; portal::WORDS];
        let number = portal::read(&sheet, &mut words).number;
        assert_eq!(number, 0, "the sheet \"{name}\" of the benchmark is refused");
        Kind { sheet, ..Kind::of_words(name, words) }
    }

    /// A setup that has no sheet here.
    pub fn of_words(name: &str, words: Vec<u64>) -> Kind {
        let setup = Setup::from_words(&words);
        let target = longest_lists(&setup);
        Kind { name: name.to_string(), sheet: Vec::new(), words, setup, target }
    }

    /// The setup's words without recovery: a row in which an edge is marked is empty.
    pub fn words_without_recovery(&self) -> Vec<u64> {
        let mut words = self.words.clone();
        let (rows, recovery) = words[1 + 4 * VERTICES..].split_at_mut(8 * VERTICES);
        rows.iter_mut().zip(recovery).for_each(|(row, less)| {
            if *less != 0 {
                *row = 0;
            }
            *less = 0;
        });
        words
    }

    /// The setup's words with no vertex losable.
    pub fn words_without_losable(&self) -> Vec<u64> {
        let mut words = self.words.clone();
        words[1..=4 * VERTICES].chunks_exact_mut(4).for_each(|vertex| vertex[2] = BLANK);
        words
    }

    /// How many edges the sheet has.
    pub fn edges(&self) -> u32 {
        self.setup.graph.iter().flatten().map(|row| row.count_ones()).sum()
    }
}

/// The vertex whose two lists together are longest.
fn longest_lists(setup: &Setup) -> usize {
    let mut tables = tables();
    twin::scores(setup, &setup.graph, &mut tables);
    let mut lengths = [0; VERTICES];
    let mut out = vec![0; ROOM];
    twin::lists(setup, &tables, &mut out, |target, _, list| lengths[target] += list.len());
    (0..setup.count).max_by_key(|&v| lengths[v]).unwrap_or(0)
}

/// Tables for a whole sheet, cleared.
pub fn tables() -> Box<twin::Tables> {
    let words = vec![[[0; WORDS]; VERTICES]; 2].into_boxed_slice();
    words.try_into().expect("two tables were asked for")
}

/// All kinds. The last two have long lists.
pub fn all() -> Vec<Kind> {
    let drafts = [
        ("random", random(1, CHOSEN, EDGES)),
        ("rings", rings()),
        ("chain with vertex order", chain(|place| place)),
        ("chain against vertex order", chain(|place| VERTICES - 1 - place)),
        ("self-loops", self_loops()),
        ("all recovery", all_recovery()),
        ("worst found", worst_found()),
    ];
    let mut kinds: Vec<Kind> =
        drafts.iter().map(|(name, draft)| Kind::new(name, draft.text())).collect();
    kinds.push(Kind::new("worst before blocks", WORST_BEFORE_BLOCKS.to_vec()));
    let mut antichain = at_least(7, CHOSEN);
    antichain.all_accounts();
    kinds.push(Kind::new("antichain of 3,432", antichain.text()));
    let longest = case(longest_reports(), "7 of 14 items, many times");
    kinds.push(Kind::new("antichain of 3,432, 28 times", longest));
    kinds
}

/// The longest accepted sheet.
pub fn longest_sheet() -> Kind {
    let sheet = case(bounds(), "the longest accepted sheet");
    assert_eq!(sheet.len(), 11_626, "the longest accepted sheet has another length");
    Kind::new("the longest accepted sheet", sheet)
}

/// The sheet of the brute force's case with a label.
fn case(cases: Vec<brute::cases::SheetCase>, label: &str) -> Vec<u8> {
    let found = cases.into_iter().find(|case| case.label == label);
    found.unwrap_or_else(|| panic!("no case is called \"{label}\"")).sheet
}

/// 64 accounts with any ranks, of which some are initial and as many losable.
fn vertices(rng: &mut Rng, initial: &[usize], losable: &[usize]) -> Draft {
    let mut draft = Draft::of_items(VERTICES);
    draft.all_accounts();
    draft.items.iter_mut().for_each(|item| item.rank = rng.below(10) as u64);
    draft.set_starting(initial, || rng.between(1, 1000) as u64);
    draft.set_losable(losable, || rng.between(1, 1000) as u64);
    draft
}

/// Vertices of which any `chosen` are initial and any losable.
fn any_vertices(rng: &mut Rng, chosen: usize) -> Draft {
    let initial = rng.some_of(VERTICES, chosen);
    let losable = rng.some_of(VERTICES, chosen);
    vertices(rng, &initial, &losable)
}

/// Adds edges with any ends until there are so many.
fn scatter(rng: &mut Rng, draft: &mut Draft, edges: usize) {
    while draft.edges.len() < edges {
        let (from, to) = (rng.below(VERTICES), rng.below(VERTICES));
        draft.add_edge(from, to, rng.below(3), rng.chance(1, 6));
    }
}

/// A random sheet.
pub fn random(seed: u64, chosen: usize, edges: usize) -> Draft {
    let mut rng = Rng::new(seed);
    let mut draft = any_vertices(&mut rng, chosen);
    scatter(&mut rng, &mut draft, edges);
    draft
}

/// Rings through all vertices by two steps, each vertex needing two others by two colours.
fn rings() -> Draft {
    let mut draft = any_vertices(&mut Rng::new(2), CHOSEN);
    for to in 0..VERTICES {
        for (colour, step) in [(0, 1), (0, 21), (1, 5), (1, 34)] {
            draft.add_edge((to + step) % VERTICES, to, colour, colour == 1 && to % 5 == 0);
        }
    }
    draft
}

/// A chain behind the first 14 places; `vertex` tells which vertex stands at a place. Each link
/// needs the one before it, with a second one of the chain or an initial one.
fn chain(vertex: impl Fn(usize) -> usize) -> Draft {
    let first: Vec<usize> = (0..CHOSEN).map(&vertex).collect();
    let mut draft = vertices(&mut Rng::new(3), &first, &first);
    for place in CHOSEN..VERTICES {
        let needed = [(place - 1, 0), (place - 2, 0), (place - 1, 1), (place * 5 % CHOSEN, 1)];
        for (from, colour) in needed {
            draft.add_edge(vertex(from), vertex(place), colour, false);
        }
        draft.add_edge(vertex(place - 1), vertex(place), 2, place % 7 == 0);
        if draft.edges.len() < EDGES {
            draft.add_edge(vertex(place * 3 % CHOSEN), vertex(place), 2, place % 7 == 0);
        }
    }
    draft.edges.truncate(EDGES);
    draft
}

/// Every vertex needs itself in one colour.
fn self_loops() -> Draft {
    let mut rng = Rng::new(4);
    let mut draft = any_vertices(&mut rng, CHOSEN);
    for v in 0..VERTICES {
        draft.add_edge(v, v, v % 3, v % 4 == 0);
    }
    scatter(&mut rng, &mut draft, EDGES);
    draft
}

fn all_recovery() -> Draft {
    let mut draft = random(5, CHOSEN, EDGES);
    draft.edges.iter_mut().for_each(|edge| edge.recovery = true);
    draft
}

/// A search for a sheet whose tables settle late: from a chain against vertex order, edges are
/// moved as long as the twin then looks at vertices no less often.
fn worst_found() -> Draft {
    let mut rng = Rng::new(6);
    let mut worst = chain(|place| VERTICES - 1 - place);
    let mut most = looks(&worst);
    for _ in 0..SEARCHED {
        let mut other = worst.clone();
        for _ in 0..rng.between(1, 3) {
            let place = rng.below(other.edges.len());
            other.edges.remove(place);
        }
        scatter(&mut rng, &mut other, EDGES);
        let found = looks(&other);
        if found >= most {
            (worst, most) = (other, found);
        }
    }
    worst
}

/// The worst sheet that the same search found while a table was made as a whole, kept so that runs can
/// be compared.
const WORST_BEFORE_BLOCKS: &[u8] = include_bytes!("worst_before_blocks.sheet");

/// How many sheets the search tries.
const SEARCHED: usize = 2000;

/// How often the twin looks at a vertex, in both tables.
fn looks(draft: &Draft) -> usize {
    let setup = draft.setup();
    let graph: twin::Graph = std::array::from_fn(|v| setup.places[v].rows);
    let set = |items: Vec<(usize, u64)>| items.iter().fold(0u64, |set, (v, _)| set | 1 << v);
    let mut table = [[0; WORDS]; VERTICES];
    twin::fill::<false>(&graph, set(setup.starting()), false, &mut table)
        + twin::fill::<false>(&graph, set(setup.losable()), true, &mut table)
}
