//! Lists of calls that change a setup (02, point 8): small sheets on which a wrong one shows, with
//! answers worked out by hand; random calls; and what has to be met among them.

use super::draft::Draft;
use super::random::{large_draft, random_draft};
use super::tiny::FAMILIES;
use super::{Rng, SheetCase};
use crate::living::{Edit, Named};
use crate::setup::{holds, items_of, single, within, Setup, COLOURS, MAX_EDGES, PLACES};
use std::collections::BTreeMap;

/// A call with what is known of it: its number, and the held set and what is opened after it.
#[derive(Clone, Copy, Debug)]
pub struct Step {
    /// The call.
    pub edit: Edit,
    /// 0, or the number of the no.
    pub number: u8,
    /// What is held then.
    pub held: u64,
    /// What is opened then.
    pub opened: u64,
}

/// A sheet, calls one after the other on its setup, and what is found in the end.
pub struct LivingCase {
    /// The sheet, which is accepted.
    pub case: SheetCase,
    /// The calls, with their answers worked out by hand.
    pub steps: Vec<Step>,
    /// An item, whether recovery is a backdoor to it at first, and whether it is in the end.
    pub backdoor: Option<(u64, bool, bool)>,
}

/// An edge from one item to another.
fn edge(from: u64, to: u64, colour: u64) -> Named {
    Named { from, to, colour }
}

fn add(from: u64, to: u64, colour: u64) -> Edit {
    Edit::Add(edge(from, to, colour), false)
}

fn add_marked(from: u64, to: u64, colour: u64) -> Edit {
    Edit::Add(edge(from, to, colour), true)
}

fn remove(from: u64, to: u64, colour: u64) -> Edit {
    Edit::Remove(edge(from, to, colour))
}

use Edit::{TakeIn, TakeOut};

/// A sheet of credentials that start with these names and of one account behind them, and its edges.
fn sheet(names: &[&str], edges: &[&str]) -> Vec<u8> {
    let items: String = names.iter().map(|name| format!("{name} c 1 1 0\n")).collect();
    let edges: String = edges.iter().map(|edge| format!("{edge}\n")).collect();
    format!("name kind start loss rank\n{items}t a - - 1\n\nfrom to colour rec\n{edges}")
        .into_bytes()
}

/// A case: its label, sheet, and of each call the number and both sets after it.
fn case(label: &str, sheet: Vec<u8>, steps: &[(Edit, u8, u64, u64)]) -> LivingCase {
    let case = SheetCase::accepted(format!("living: {label}"), sheet);
    let step = |&(edit, number, held, opened)| Step { edit, number, held, opened };
    LivingCase { case, steps: steps.iter().map(step).collect(), backdoor: None }
}

/// All of them.
pub fn living_cases() -> Vec<LivingCase> {
    let mut cases = opening_and_shutting();
    cases.extend(holding());
    cases.extend(refusals());
    cases.push(an_unmarked_edge_is_no_backdoor());
    cases.extend(full_drawings());
    cases
}

/// Items a (1), b (2), t (4). Opening is not monotone in the edges: each way round is here.
fn opening_and_shutting() -> Vec<LivingCase> {
    let of = |edges: &[&str]| sheet(&["a", "b"], edges);
    vec![
        case(
            "an edge added to a colour that has another shuts",
            of(&["a t 0 0"]),
            &[
                (TakeIn(0), 0, 1, 5),
                (add(1, 2, 0), 0, 1, 1),
                (TakeIn(1), 0, 3, 7),
                (TakeOut(1), 0, 1, 1),
                (remove(1, 2, 0), 0, 1, 5),
            ],
        ),
        case(
            "an edge removed from a colour that has another opens",
            of(&["a t 0 0", "b t 0 0"]),
            &[(TakeIn(0), 0, 1, 1), (remove(1, 2, 0), 0, 1, 5), (remove(0, 2, 0), 0, 1, 1)],
        ),
        case(
            "an edge added to an empty colour opens",
            of(&["b t 0 0"]),
            &[(TakeIn(0), 0, 1, 1), (add(0, 2, 1), 0, 1, 5), (TakeOut(0), 0, 0, 0)],
        ),
        case(
            "an edge added to another item's row opens that one alone",
            of(&[]),
            &[(TakeIn(0), 0, 1, 1), (add(0, 1, 0), 0, 1, 3), (add(1, 2, 0), 0, 1, 7)],
        ),
        case(
            "the last edge of a colour removed shuts, and all behind it",
            of(&["a b 0 0", "b t 0 0"]),
            &[(TakeIn(0), 0, 1, 7), (remove(0, 1, 0), 0, 1, 1), (add(0, 1, 3), 0, 1, 7)],
        ),
        case(
            "the last edge of one of two colours removed leaves it open",
            of(&["a t 0 0", "a t 1 0"]),
            &[(TakeIn(0), 0, 1, 5), (remove(0, 2, 0), 0, 1, 5), (remove(0, 2, 1), 0, 1, 1)],
        ),
        case(
            "an edge makes a colour harder, and another colour keeps it open",
            of(&["a t 0 0", "a t 1 0"]),
            &[(TakeIn(0), 0, 1, 5), (add(1, 2, 0), 0, 1, 5), (add(1, 2, 1), 0, 1, 1)],
        ),
    ]
}

/// What is held, and what the rest of it opens. Rings hold nothing up by themselves.
fn holding() -> Vec<LivingCase> {
    vec![
        case(
            "two in a ring, opened from outside, fall with what opened them",
            sheet(&["a", "b"], &["a b 0 0", "b t 0 0", "t b 1 0"]),
            &[(TakeIn(0), 0, 1, 7), (TakeOut(0), 0, 0, 0), (TakeIn(2), 0, 4, 6)],
        ),
        case(
            "a ring whose way in is removed falls",
            sheet(&["a", "b"], &["a b 0 0", "b t 0 0", "t b 1 0"]),
            &[(TakeIn(0), 0, 1, 7), (remove(0, 1, 0), 0, 1, 1), (add(0, 2, 7), 0, 1, 7)],
        ),
        case(
            "an item that needs itself is held, or shut",
            sheet(&["a"], &["t t 0 0"]),
            &[
                (TakeIn(0), 0, 1, 1),
                (TakeIn(1), 0, 3, 3),
                (TakeOut(1), 0, 1, 1),
                (add(0, 1, 0), 0, 1, 1),
                (add(0, 1, 1), 0, 1, 3),
                (remove(1, 1, 0), 0, 1, 3),
            ],
        ),
        case(
            "a self-edge added beside a needed item shuts",
            sheet(&["a"], &["a t 5 0"]),
            &[(TakeIn(0), 0, 1, 3), (add(1, 1, 5), 0, 1, 1), (remove(0, 1, 5), 0, 1, 1)],
        ),
        case(
            "an item taken out stays open where the rest opens it",
            sheet(&["a", "b"], &["a b 0 0", "b t 0 0"]),
            &[
                (TakeIn(0), 0, 1, 7),
                (TakeIn(1), 0, 3, 7),
                (TakeOut(1), 0, 1, 7),
                (TakeIn(1), 0, 3, 7),
                (TakeOut(0), 0, 2, 6),
            ],
        ),
        case(
            "an opened item taken in stays when its opener is taken out",
            sheet(&["a", "b"], &["a t 0 0"]),
            &[(TakeIn(0), 0, 1, 5), (TakeIn(2), 0, 5, 5), (TakeOut(0), 0, 4, 4)],
        ),
        case(
            "taking in a held item, and taking out one not held, changes nothing",
            sheet(&["a", "b"], &["a t 0 0"]),
            &[
                (TakeOut(0), 0, 0, 0),
                (TakeIn(0), 0, 1, 5),
                (TakeIn(0), 0, 1, 5),
                (TakeOut(1), 0, 1, 5),
                // Opened, and not held.
                (TakeOut(2), 0, 1, 5),
            ],
        ),
        case(
            "an account is held too, and what neither starts nor can be lost",
            b"name kind start loss rank\nx c - - 0\nt a - - 1\n\nfrom to colour rec\nx t 0 0\n"
                .to_vec(),
            &[(TakeIn(1), 0, 2, 2), (TakeIn(0), 0, 3, 3), (TakeOut(1), 0, 1, 3)],
        ),
        last_of_64(),
    ]
}

/// 64 items: the last one opens the first, and 64 is none.
fn last_of_64() -> LivingCase {
    let mut draft = Draft::of_items(PLACES);
    draft.add_edge(63, 0, 7, false);
    let (first, last) = (1, 1 << 63);
    case(
        "the last of 64 items",
        draft.text(),
        &[
            (TakeIn(63), 0, last, last | first),
            (TakeIn(64), 13, last, last | first),
            (add(0, 63, 7), 0, last, last | first),
            (TakeOut(63), 0, 0, 0),
            (TakeIn(0), 0, first, first | last),
            (add(64, 63, 7), 13, first, first | last),
            (remove(63, 64, 7), 13, first, first | last),
        ],
    )
}

/// Each no, and that those before it in their order come first: of three items, a (1) is held and
/// opens t (4).
fn refusals() -> Vec<LivingCase> {
    let of = || sheet(&["a", "b"], &["a t 0 0"]);
    let held = |label: &str, refused: &[(Edit, u8)]| {
        let mut steps = vec![(TakeIn(0), 0, 1, 5)];
        steps.extend(refused.iter().map(|&(edit, number)| (edit, number, 1, 5)));
        case(label, of(), &steps)
    };
    let (far, top) = (u64::MAX, 1 << 32);
    vec![
        held(
            "13 of an item",
            &[(TakeIn(3), 13), (TakeOut(3), 13), (TakeIn(far), 13), (TakeOut(top), 13)],
        ),
        held(
            "13 of both ends, with every other number behind it",
            &[
                (add(3, 2, 0), 13),
                (add(0, 3, 0), 13),
                (add(3, 3, 8), 13),
                (add(far, 2, far), 13),
                (add(0, top, 8), 13),
                (remove(3, 2, 0), 13),
                (remove(0, 3, 0), 13),
                (remove(0, far, far), 13),
            ],
        ),
        held(
            "18, colour above 7, before 19 and 20",
            &[
                (add(0, 2, 8), 18),
                (add_marked(1, 2, 8), 18),
                (add(0, 2, 64), 18),
                (add(0, 2, top), 18),
                (add(0, 2, far), 18),
                (remove(0, 2, 8), 18),
                (remove(1, 2, far), 18),
            ],
        ),
        held("19 with either mark", &[(add(0, 2, 0), 19), (add_marked(0, 2, 0), 19)]),
        held(
            "20, also where the edge has another end or colour, or goes the other way",
            &[
                (remove(1, 2, 0), 20),
                (remove(0, 1, 0), 20),
                (remove(0, 2, 1), 20),
                (remove(2, 0, 0), 20),
            ],
        ),
        case(
            "colour 7 and the last item are there",
            of(),
            &[
                (TakeIn(2), 0, 4, 4),
                (add(2, 1, 7), 0, 4, 6),
                (add(2, 1, 7), 19, 4, 6),
                (remove(2, 1, 7), 0, 4, 4),
                (remove(2, 1, 7), 20, 4, 4),
            ],
        ),
        case(
            "19 of a marked edge, which keeps its mark",
            sheet(&["a", "b"], &["a t 0 1"]),
            &[(add(0, 2, 0), 19, 0, 0), (add_marked(0, 2, 0), 19, 0, 0)],
        ),
    ]
}

/// By a marked edge a alone opens t, at 1; without recovery a and b do together, at 2. Then the edge is
/// removed and added again without its mark.
fn an_unmarked_edge_is_no_backdoor() -> LivingCase {
    let edges = ["a t 0 0", "b t 0 0", "a t 1 1"];
    let again = case(
        "a marked edge removed and added unmarked",
        sheet(&["a", "b"], &edges),
        &[(remove(0, 2, 1), 0, 0, 0), (TakeIn(0), 0, 1, 1), (add(0, 2, 1), 0, 1, 5)],
    );
    LivingCase { backdoor: Some((2, true, false)), ..again }
}

/// 7 is asked after 19, and of the 257th edge alone: marked edges are not counted twice.
fn full_drawings() -> Vec<LivingCase> {
    let full = |label: &str, edges: usize, marked: bool, steps: &[(Edit, u8, u64, u64)]| {
        let mut draft = Draft::of_items(16);
        // 16 items and two colours have 512 places: the first of them.
        let every = (0..edges).map(|number| (number % 16, number / 16 % 16, number / 256));
        every.for_each(|(from, to, colour)| draft.add_edge(from, to, colour, marked));
        case(label, draft.text(), steps)
    };
    // Colour 0 of item 15 has items 0 to 14, or all with the 256th edge.
    let last = add(15, 15, 0);
    let over = add(0, 0, 1);
    let steps = [
        (over, 0, 0, 0),
        (last, 7, 0, 0),
        (add(0, 0, 0), 19, 0, 0),
        (add(0, 0, 1), 19, 0, 0),
        (add_marked(0, 0, 1), 19, 0, 0),
        (add(0, 0, 2), 7, 0, 0),
        (remove(0, 0, 2), 20, 0, 0),
        (remove(0, 0, 0), 0, 0, 0),
        (last, 0, 0, 0),
        (last, 19, 0, 0),
        (add(0, 0, 0), 7, 0, 0),
        (add(0, 0, 8), 18, 0, 0),
        (add(0, 16, 0), 13, 0, 0),
        (TakeIn(3), 0, 8, 8),
    ];
    vec![
        full("255 edges, then the 256th and 257th", MAX_EDGES - 1, false, &steps),
        full("255 marked edges, then the 256th and 257th", MAX_EDGES - 1, true, &steps),
        full(
            "256 edges",
            MAX_EDGES,
            false,
            &[(over, 7, 0, 0), (last, 19, 0, 0), (remove(15, 15, 0), 0, 0, 0)],
        ),
        full(
            "256 marked edges",
            MAX_EDGES,
            true,
            &[(over, 7, 0, 0), (last, 19, 0, 0), (TakeIn(0), 0, 1, 1)],
        ),
    ]
}

/// The rows of a sheet from which a list of calls begins; the number chooses: mostly a random shape, now
/// and then a tiny graph, one at the bounds, or one with 250 edges or more.
pub fn beginning(rng: &mut Rng, number: usize) -> Draft {
    match number % 10 {
        0 | 5 => {
            let family = *rng.pick(FAMILIES);
            Draft::of_setup(&family.setup(rng.number() % family.count()))
        }
        3 => nearly_full(rng),
        8 if number % 40 == 8 => large_draft(rng, number / 40),
        _ => random_draft(rng, number),
    }
}

/// A sheet of few items with 250 to 256 edges.
fn nearly_full(rng: &mut Rng) -> Draft {
    let (count, edges) = (rng.between(7, 12), rng.between(250, MAX_EDGES));
    let mut draft = Draft::of_items(count);
    let starting = rng.some_of(count, 4);
    draft.set_starting(&starting, || rng.below(4) as u64);
    draft.set_losable(&starting, || rng.below(4) as u64);
    while draft.edges.len() < edges {
        let (from, to) = (rng.below(count), rng.below(count));
        draft.add_edge(from, to, rng.below(COLOURS), rng.chance(1, 4));
    }
    draft
}

/// A call on a setup that has an item: one in eight with numbers that are refused, the others with
/// items, ends and colours that are there, so that some of them are refused too.
pub fn random_edit(rng: &mut Rng, setup: &Setup) -> Edit {
    if rng.chance(1, 8) {
        return refused_edit(rng, setup);
    }
    let count = setup.count.clamp(1, PLACES as u64) as usize;
    match rng.below(8) {
        0..=2 => TakeIn(rng.below(count) as u64),
        3 => TakeOut(some_of(rng, setup.held).unwrap_or(rng.below(count) as u64)),
        4 => TakeOut(rng.below(count) as u64),
        _ => redrawing(rng, setup),
    }
}

/// A call that adds an edge or removes one, most of the time one that is not there or is.
pub fn redrawing(rng: &mut Rng, setup: &Setup) -> Edit {
    let edges = edges(setup);
    // A drawing that is nearly full is kept so.
    let less = if edges.len() + 8 < MAX_EDGES { 4 } else { 2 };
    if !edges.is_empty() && rng.chance(less, 8) {
        return Edit::Remove(*rng.pick(&edges));
    }
    let count = setup.count.clamp(1, PLACES as u64) as usize;
    // From an item that is open, half of the time, and to a colour that has an edge: so that adding
    // opens and shuts.
    let open = some_of(rng, setup.opened).filter(|_| rng.chance(1, 2));
    let from = open.unwrap_or(rng.below(count) as u64);
    let colours = *rng.pick(&[2, 2, COLOURS]);
    let anywhere = Named { from, to: rng.below(count) as u64, colour: rng.below(colours) as u64 };
    let beside = (!edges.is_empty() && rng.chance(1, 2)).then(|| *rng.pick(&edges));
    let edge = beside.map_or(anywhere, |beside| Named { from, ..beside });
    Edit::Add(edge, rng.chance(1, 3))
}

/// A call that is refused for its numbers: no item, no end, no colour, an edge that is there or is not.
fn refused_edit(rng: &mut Rng, setup: &Setup) -> Edit {
    let count = setup.count;
    let near = [count, count.saturating_add(1), 63, 64, 65, 255, 256, 1 << 32, u64::MAX];
    let outside: Vec<u64> = near.into_iter().filter(|&item| item >= count).collect();
    let item = rng.below(count.clamp(1, PLACES as u64) as usize) as u64;
    let (beyond, other) = (*rng.pick(&outside), *rng.pick(&outside));
    let (low, high) = (rng.below(COLOURS) as u64, *rng.pick(&[8, 9, 64, 256, 1 << 32, u64::MAX]));
    let colour = *rng.pick(&[low, low, high]);
    let edges = edges(setup);
    let named = match rng.below(6) {
        0 => Named { from: beyond, to: item, colour },
        1 => Named { from: item, to: beyond, colour },
        2 => Named { from: beyond, to: other, colour },
        3 => Named { from: item, to: item, colour: high },
        _ if edges.is_empty() => Named { from: item, to: item, colour: high },
        4 => *rng.pick(&edges),
        // The ends the other way round, or another colour: perhaps not there.
        _ => {
            let Named { from, to, colour } = *rng.pick(&edges);
            let turned = Named { from: to, to: from, colour };
            *rng.pick(&[turned, Named { from, to, colour: low }, Named { from, to, colour: high }])
        }
    };
    match rng.below(6) {
        0 => *rng.pick(&[TakeIn(beyond), TakeOut(beyond)]),
        1..=3 => Edit::Remove(named),
        _ => Edit::Add(named, rng.chance(1, 2)),
    }
}

/// One item of a set, if it has any.
fn some_of(rng: &mut Rng, set: u64) -> Option<u64> {
    let items: Vec<usize> = items_of(set).collect();
    (!items.is_empty()).then(|| *rng.pick(&items) as u64)
}

/// The edges by their ends and colours.
pub fn edges(setup: &Setup) -> Vec<Named> {
    let into = |to: usize| {
        (0..COLOURS).flat_map(move |colour| {
            let named = move |from: usize| edge(from as u64, to as u64, colour as u64);
            items_of(setup.places[to].rows[colour]).map(named)
        })
    };
    (0..PLACES).flat_map(into).collect()
}

/// What was met in lists of calls, each sort with how often.
#[derive(Clone, Debug, Default)]
pub struct Met(BTreeMap<&'static str, usize>);

impl Met {
    fn add(&mut self, sort: &'static str) {
        *self.0.entry(sort).or_default() += 1;
    }

    /// Counts a call: the setup before it, the call, its number, and the setup after it.
    pub fn count(&mut self, before: &Setup, edit: Edit, number: u8, after: &Setup) {
        match number {
            0 => self.accepted(before, edit, after),
            7 => self.add("refused with 7"),
            13 => self.add("refused with 13"),
            18 => self.add("refused with 18"),
            19 => self.refused_there(before, edit),
            20 => self.add("refused with 20"),
            _ => self.add("refused with another number"),
        }
    }

    /// Counts a call in a buffer of another length, by its number: one that is too short is no setup.
    pub fn count_other_length(&mut self, number: u64) {
        match number {
            0 => self.add("another length, accepted"),
            12 => self.add("another length, refused with 12"),
            _ => {}
        }
    }

    fn refused_there(&mut self, before: &Setup, edit: Edit) {
        self.add("refused with 19");
        if before.edges() == MAX_EDGES {
            self.add("refused with 19 in a full drawing");
        }
        if let Edit::Add(Named { from, to, colour }, marked) = edit {
            let recovery = before.places[to as usize].recovery[colour as usize];
            if holds(recovery, from as usize) != marked {
                self.add("refused with 19, with the other mark");
            }
        }
    }

    fn accepted(&mut self, before: &Setup, edit: Edit, after: &Setup) {
        let (opens, shuts) =
            (!within(after.opened, before.opened), !within(before.opened, after.opened));
        match edit {
            Edit::TakeIn(item) => {
                let set = single(item as usize);
                self.when(before.held & set != 0, "held already");
                self.when(before.opened & set != 0 && before.held & set == 0, "opened, then held");
                self.when(after.opened & !before.opened & !set != 0, "taken in, others open");
            }
            Edit::TakeOut(item) => {
                let set = single(item as usize);
                self.when(before.held & set == 0, "not held");
                self.when(before.held & set != 0 && after.opened & set != 0, "out, and still open");
                self.when(before.opened & !after.opened & !set != 0, "taken out, others shut");
            }
            Edit::Add(_, marked) => {
                self.when(opens, "an added edge opens");
                self.when(shuts, "an added edge shuts");
                self.when(opens && shuts, "an added edge does both");
                self.when(marked, "a marked edge added");
                self.when(after.edges() == MAX_EDGES, "the 256th edge");
            }
            Edit::Remove(Named { from, to, colour }) => {
                self.when(opens, "a removed edge opens");
                self.when(shuts, "a removed edge shuts");
                let recovery = before.places[to as usize].recovery[colour as usize];
                self.when(holds(recovery, from as usize), "a marked edge removed");
            }
        }
    }

    fn when(&mut self, met: bool, sort: &'static str) {
        if met {
            self.add(sort);
        }
    }

    /// The sorts of [`FLOORS`] of which fewer were met than there stand.
    pub fn too_few(&self) -> Vec<(&'static str, usize)> {
        self.below(FLOORS)
    }

    /// The same of [`LENGTH_FLOORS`], where calls are made in buffers of other lengths too.
    pub fn too_few_of_other_lengths(&self) -> Vec<(&'static str, usize)> {
        self.below(LENGTH_FLOORS)
    }

    fn below(&self, floors: &[(&'static str, usize)]) -> Vec<(&'static str, usize)> {
        let met = |sort: &str| self.0.get(sort).copied().unwrap_or(0);
        let floors = floors.iter().map(|&(sort, floor)| (sort, floor, met(sort)));
        floors.filter(|&(_, floor, met)| met < floor).map(|(sort, _, met)| (sort, met)).collect()
    }
}

/// How many of each sort [`LISTS`] random lists have at least.
const FLOORS: &[(&str, usize)] = &[
    ("refused with 7", 20),
    ("refused with 13", 400),
    ("refused with 18", 120),
    ("refused with 19", 300),
    ("refused with 19 in a full drawing", 12),
    ("refused with 19, with the other mark", 130),
    ("refused with 20", 25),
    ("held already", 600),
    ("opened, then held", 300),
    ("taken in, others open", 300),
    ("not held", 500),
    ("out, and still open", 180),
    ("taken out, others shut", 170),
    ("an added edge opens", 80),
    ("an added edge shuts", 22),
    ("a marked edge added", 250),
    ("the 256th edge", 15),
    ("a removed edge opens", 22),
    ("a removed edge shuts", 60),
    ("a marked edge removed", 300),
];

/// How many calls of [`LISTS`] random lists are made in a buffer of another length besides, and accepted
/// or refused with 12 there.
const LENGTH_FLOORS: &[(&str, usize)] =
    &[("another length, accepted", 300), ("another length, refused with 12", 480)];

/// How many random lists of calls the floors are for.
pub const LISTS: usize = 400;
/// The most calls of a list.
pub const CALLS: usize = 60;
