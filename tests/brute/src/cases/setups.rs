//! Setups that no accepted sheet and no calls on it yield, one for each way to be malformed, and near
//! misses that some do.

use super::draft::Draft;
use super::random::random_draft;
use super::{Rng, SetupCase};
use crate::graph;
use crate::setup::{
    items_of, single, Place, Setup, ACCOUNT, COLOURS, CREDENTIAL, MAX_EDGES, MAX_LOSABLE, MAX_RANK,
    MAX_STARTING, MAX_VALUE, PLACES, UNUSED,
};

/// What is done to a well-formed setup of few items.
type Change = fn(&mut Rng, &mut Setup);

/// The ways to be malformed.
const MALFORMED: &[(&str, Change)] = &[
    ("no items", |_, setup| *setup = Setup::empty()),
    ("count 0, places in use", |_, setup| {
        setup.places[0].kind = ACCOUNT;
        setup.count = 0;
    }),
    ("count 65", |_, setup| setup.count = 65),
    ("count 128", |_, setup| setup.count = 128),
    ("count 2^32 more", |_, setup| setup.count += 1 << 32),
    ("count 2^64 - 1", |_, setup| setup.count = u64::MAX),
    ("count too small", |_, setup| {
        let last = setup.count as usize - 1;
        setup.places[last].kind = ACCOUNT;
        setup.count -= 1;
    }),
    ("kind 0", |rng, setup| some_place(rng, setup).kind = 0),
    ("kind 1", |rng, setup| some_place(rng, setup).kind = 1),
    ("kind b", |rng, setup| some_place(rng, setup).kind = b'b'),
    ("kind 255", |rng, setup| some_place(rng, setup).kind = 255),
    ("start 4,000,000,001", |rng, setup| replace_start(rng, setup, MAX_VALUE + 1)),
    ("start 2^32 - 1", |rng, setup| replace_start(rng, setup, u64::from(u32::MAX))),
    ("start 2^32", |rng, setup| replace_start(rng, setup, 1 << 32)),
    ("start 2^32 + 1", |rng, setup| replace_start(rng, setup, (1 << 32) + 1)),
    ("start 2^64 - 1", |rng, setup| replace_start(rng, setup, u64::MAX)),
    ("start 2^64 - 2", |rng, setup| replace_start(rng, setup, u64::MAX - 1)),
    ("loss 4,000,000,001", |rng, setup| replace_loss(rng, setup, MAX_VALUE + 1)),
    ("loss 2^32 - 1", |rng, setup| replace_loss(rng, setup, u64::from(u32::MAX))),
    ("loss 2^32", |rng, setup| replace_loss(rng, setup, 1 << 32)),
    ("loss 2^32 + 1", |rng, setup| replace_loss(rng, setup, (1 << 32) + 1)),
    ("loss 2^64 - 1", |rng, setup| replace_loss(rng, setup, u64::MAX)),
    ("loss 2^64 - 2", |rng, setup| replace_loss(rng, setup, u64::MAX - 1)),
    ("rank 10", |rng, setup| some_place(rng, setup).rank = MAX_RANK + 1),
    ("rank 255", |rng, setup| some_place(rng, setup).rank = 255),
    ("rank 256", |rng, setup| some_place(rng, setup).rank = 256),
    ("15 starting items", |rng, setup| {
        *setup = with_values(rng, MAX_STARTING + 1, 3);
    }),
    ("15 losable items", |rng, setup| {
        *setup = with_values(rng, 3, MAX_LOSABLE + 1);
    }),
    ("64 starting items", |rng, setup| *setup = with_values(rng, PLACES, 0)),
    ("64 losable items", |rng, setup| *setup = with_values(rng, 0, PLACES)),
    ("257 edges", |rng, setup| *setup = with_edges(rng, MAX_EDGES + 1)),
    ("all edges there are", |_, setup| {
        *setup = Draft::of_items(PLACES).setup();
        setup.places = [Place { rows: [u64::MAX; COLOURS], ..UNUSED }; PLACES];
    }),
    ("a row with the item behind the last", |rng, setup| {
        let outside = 1 << setup.count;
        *some_row(rng, setup).0 |= outside;
    }),
    ("a row with item 63", |rng, setup| *some_row(rng, setup).0 |= 1 << 63),
    ("both rows with the item behind the last", |rng, setup| {
        let outside = 1 << setup.count;
        let (row, recovery) = some_row(rng, setup);
        *row |= outside;
        *recovery |= outside;
    }),
    ("a recovery edge that isn't in the rows", |rng, setup| {
        let (row, recovery) = some_row(rng, setup);
        *row &= !1;
        *recovery |= 1;
    }),
    ("a recovery edge in an empty row", |rng, setup| {
        let (row, recovery) = some_row(rng, setup);
        *row = 0;
        *recovery = 1;
    }),
    ("a recovery row with item 63", |rng, setup| *some_row(rng, setup).1 |= 1 << 63),
    ("recovery in another colour", |rng, setup| {
        let place = some_place(rng, setup);
        (place.rows[0], place.recovery[0]) = (1, 0);
        (place.rows[7], place.recovery[7]) = (0, 1);
    }),
    ("an unused account", |rng, setup| some_unused(rng, setup).kind = ACCOUNT),
    ("an unused place of kind 0", |rng, setup| some_unused(rng, setup).kind = 0),
    ("an unused place with start 0", |rng, setup| some_unused(rng, setup).start = Some(0)),
    ("an unused place with start 5", |rng, setup| some_unused(rng, setup).start = Some(5)),
    ("an unused place with loss 0", |rng, setup| some_unused(rng, setup).loss = Some(0)),
    ("an unused place with loss 5", |rng, setup| some_unused(rng, setup).loss = Some(5)),
    ("an unused place with rank 1", |rng, setup| some_unused(rng, setup).rank = 1),
    ("an unused place with a row", |rng, setup| {
        let colour = rng.below(COLOURS);
        some_unused(rng, setup).rows[colour] = 1;
    }),
    ("an unused place with a recovery row", |rng, setup| {
        let colour = rng.below(COLOURS);
        some_unused(rng, setup).recovery[colour] = 1;
    }),
    ("an unused place with both rows", |rng, setup| {
        let place = some_unused(rng, setup);
        (place.rows[7], place.recovery[7]) = (1, 1);
    }),
    ("an unused place with a row to itself", |_, setup| {
        let next = setup.count as usize;
        setup.places[next].rows[0] = 1 << next;
    }),
    ("the last place with a row", |_, setup| setup.places[63].rows[7] = 1),
    ("the last place with a recovery row", |_, setup| setup.places[63].recovery[7] = 1),
    ("the last place with rank 9", |_, setup| setup.places[63].rank = 9),
    ("the last place with loss 0", |_, setup| setup.places[63].loss = Some(0)),
];

/// The ways to be malformed by the held set and what is told to be opened (02, point 8). All else of
/// these setups is in order.
const MALFORMED_LIVING: &[(&str, Change)] = &[
    ("held the item behind the last", |_, setup| {
        setup.held = 1 << setup.count;
        setup.opened = setup.held;
    }),
    ("held the item behind the last, not opened", |rng, setup| {
        hold_some(rng, setup);
        setup.held |= 1 << setup.count;
    }),
    ("held item 63 of fewer", |rng, setup| {
        hold_some(rng, setup);
        setup.held |= 1 << 63;
        setup.opened |= 1 << 63;
    }),
    ("held everything there could be", |_, setup| (setup.held, setup.opened) = (!0, !0)),
    ("opened one item more", |rng, setup| {
        while setup.opened == setup.all_items() || setup.held == 0 {
            *setup = few_items(rng);
            hold_some(rng, setup);
        }
        setup.opened |= some_item(rng, setup.all_items() & !setup.opened);
    }),
    ("opened one item less", |rng, setup| {
        while setup.opened == setup.held {
            *setup = few_items(rng);
            hold_some(rng, setup);
        }
        setup.opened &= !some_item(rng, setup.opened & !setup.held);
    }),
    ("a held item is not opened", |rng, setup| {
        hold_one(rng, setup);
        setup.opened &= !setup.held;
    }),
    ("opened the item behind the last", |rng, setup| {
        hold_some(rng, setup);
        setup.opened |= 1 << setup.count;
    }),
    ("held, and nothing opened", |rng, setup| {
        hold_one(rng, setup);
        setup.opened = 0;
    }),
    ("opened, and nothing held", |rng, setup| setup.opened = some_item(rng, setup.all_items())),
    ("all opened, and nothing held", |_, setup| setup.opened = setup.all_items()),
    ("what was opened, and nothing held", |rng, setup| {
        hold_one(rng, setup);
        setup.held = 0;
    }),
    ("a ring that holds itself up", |rng, setup| {
        // The two need each other and nothing else: closed together, and opened by neither's lack.
        *setup = ring_of(rng, 2);
        setup.opened = 0b11;
    }),
    ("a longer ring that holds itself up", |rng, setup| {
        let many = rng.between(3, 8);
        *setup = ring_of(rng, many);
        setup.opened = (1 << many) - 1;
    }),
    ("an item that holds itself up", |rng, setup| {
        *setup = ring_of(rng, 1);
        setup.opened = 1;
    }),
    ("a ring that holds itself up beside a held item", |rng, setup| {
        *setup = ring_of(rng, 3);
        let alone = single(setup.count as usize - 1);
        (setup.held, setup.opened) = (alone, alone | 0b111);
    }),
    ("what was open before an edge made its colour harder", |_, setup| {
        *setup = one_opens_another();
        setup.places[1].rows[0] |= 1 << 2;
    }),
    ("what was open before its edge went", |_, setup| {
        *setup = one_opens_another();
        setup.places[1].rows[0] = 0;
    }),
    ("what was open before an edge opened more", |_, setup| {
        *setup = one_opens_another();
        setup.places[2].rows[7] = 0b10;
    }),
    ("opened by half of a colour", |_, setup| {
        *setup = one_opens_another();
        setup.places[2].rows[3] = 0b1001;
        setup.opened |= 1 << 2;
    }),
    ("opened by an empty colour", |_, setup| {
        *setup = one_opens_another();
        setup.opened |= 1 << 3;
    }),
    ("opened without recovery", |_, setup| {
        *setup = one_opens_another();
        setup.places[1].recovery[0] = 0b1;
        setup.opened = 0b1;
    }),
];

/// Changes that leave a setup well formed.
const NEAR_MISSES: &[(&str, Change)] = &[
    ("unchanged", |_, _| {}),
    ("one bare item", |_, setup| *setup = Draft::of_items(1).setup()),
    ("one item that needs itself", |_, setup| {
        *setup = Draft::of_items(1).setup();
        (setup.places[0].rows[7], setup.places[0].recovery[7]) = (1, 1);
    }),
    ("64 bare items", |_, setup| *setup = Draft::of_items(PLACES).setup()),
    ("a bare item more", |_, setup| setup.count += 1),
    ("start 4,000,000,000", |rng, setup| replace_start(rng, setup, MAX_VALUE)),
    ("start 0", |rng, setup| replace_start(rng, setup, 0)),
    ("loss 4,000,000,000", |rng, setup| replace_loss(rng, setup, MAX_VALUE)),
    ("loss 0", |rng, setup| replace_loss(rng, setup, 0)),
    ("rank 9", |rng, setup| some_place(rng, setup).rank = MAX_RANK),
    ("kind a", |rng, setup| some_place(rng, setup).kind = ACCOUNT),
    ("kind c", |rng, setup| some_place(rng, setup).kind = CREDENTIAL),
    ("14 starting items", |rng, setup| *setup = with_values(rng, MAX_STARTING, 3)),
    ("14 losable items", |rng, setup| *setup = with_values(rng, 3, MAX_LOSABLE)),
    ("14 of both", |rng, setup| *setup = with_values(rng, MAX_STARTING, MAX_LOSABLE)),
    ("nothing starts, nothing can be lost", |_, setup| {
        for place in &mut setup.places {
            (place.start, place.loss) = (None, None);
        }
    }),
    ("256 edges", |rng, setup| *setup = with_edges(rng, MAX_EDGES)),
    ("a row with the last item", |rng, setup| {
        let last = 1 << (setup.count - 1);
        *some_row(rng, setup).0 |= last;
    }),
    ("a row of recovery edges alone", |rng, setup| {
        let (row, recovery) = some_row(rng, setup);
        *recovery = *row;
    }),
    ("no recovery edges", |_, setup| {
        for place in &mut setup.places {
            place.recovery = [0; COLOURS];
        }
    }),
    ("all edges are recovery edges", |_, setup| {
        for place in &mut setup.places {
            place.recovery = place.rows;
        }
    }),
    ("one item held", |rng, setup| hold_one(rng, setup)),
    ("some items held", |rng, setup| hold_some(rng, setup)),
    ("the last item held", |_, setup| hold(setup, 1 << (setup.count - 1))),
    ("all items held", |_, setup| hold(setup, setup.all_items())),
    ("item 63 of 64 held", |_, setup| {
        *setup = Draft::of_items(PLACES).setup();
        hold(setup, 1 << 63);
    }),
    ("all of 64 held", |_, setup| {
        *setup = Draft::of_items(PLACES).setup();
        hold(setup, u64::MAX);
    }),
    ("a ring that a held item opens", |rng, setup| {
        *setup = ring_of(rng, 4);
        hold(setup, 0b10);
    }),
    ("one that opens another", |_, setup| *setup = one_opens_another()),
];

/// Each way to be malformed, `rounds` times from different setups. Question 12 is a no.
pub fn malformed_setups(seed: u64, rounds: usize) -> Vec<SetupCase> {
    let mut cases = changed(seed, rounds, MALFORMED);
    cases.extend(malformed_living(seed, rounds));
    cases
}

/// Those of them that are malformed by the held set and what is told to be opened, alone.
pub fn malformed_living(seed: u64, rounds: usize) -> Vec<SetupCase> {
    changed(seed, rounds, MALFORMED_LIVING)
}

/// Near misses, `rounds` times from different setups. Question 12 is a yes.
pub fn near_misses(seed: u64, rounds: usize) -> Vec<SetupCase> {
    changed(seed, rounds, NEAR_MISSES)
}

/// Random setups with a few random bits changed, well formed or not.
pub fn shaken_setups(seed: u64, count: usize) -> impl Iterator<Item = SetupCase> {
    let mut rng = Rng::new(seed);
    (0..count).map(move |number| {
        let mut setup = few_items(&mut rng);
        if rng.chance(1, 3) {
            hold_some(&mut rng, &mut setup);
        }
        for _ in 0..rng.between(1, 2) {
            shake(&mut rng, &mut setup);
        }
        SetupCase { label: format!("shaken, {number} of seed {seed}"), setup }
    })
}

fn changed(seed: u64, rounds: usize, changes: &[(&str, Change)]) -> Vec<SetupCase> {
    let mut rng = Rng::new(seed);
    let mut cases = Vec::new();
    for round in 0..rounds {
        for (label, change) in changes {
            let mut setup = few_items(&mut rng);
            change(&mut rng, &mut setup);
            cases
                .push(SetupCase { label: format!("{label}, round {round} of seed {seed}"), setup });
        }
    }
    cases
}

/// A well-formed setup with edges, of 2 to 62 items, so that every change is one.
fn few_items(rng: &mut Rng) -> Setup {
    loop {
        let shape = rng.below(100);
        let setup = random_draft(rng, shape).setup();
        if (2..=62).contains(&setup.count) && setup.edges() < 200 {
            return setup;
        }
    }
}

/// Holds a set, and opens what it opens.
pub fn hold(setup: &mut Setup, held: u64) {
    setup.held = held;
    setup.opened = graph::closure(setup, held);
}

/// Holds any of the items.
pub fn hold_some(rng: &mut Rng, setup: &mut Setup) {
    let held = rng.number() & rng.number() & setup.all_items();
    hold(setup, held);
}

/// Holds one of the items.
fn hold_one(rng: &mut Rng, setup: &mut Setup) {
    hold(setup, single(rng.below(setup.count as usize)));
}

/// One item of a set, which is not empty.
fn some_item(rng: &mut Rng, set: u64) -> u64 {
    let items: Vec<usize> = items_of(set).collect();
    single(*rng.pick(&items))
}

/// A ring through the first items, each of which needs the next one alone, and a bare item behind it.
fn ring_of(rng: &mut Rng, many: usize) -> Setup {
    let mut setup = Draft::of_items(many + 1).setup();
    let colour = rng.below(COLOURS);
    for item in 0..many {
        setup.places[item].rows[colour] = single((item + 1) % many);
    }
    setup
}

/// Four items: the first is held and opens the second, and the other two are shut.
fn one_opens_another() -> Setup {
    let mut setup = Draft::of_items(4).setup();
    setup.places[1].rows[0] = 0b1;
    hold(&mut setup, 0b1);
    setup
}

fn some_place<'a>(rng: &mut Rng, setup: &'a mut Setup) -> &'a mut Place {
    &mut setup.places[rng.below(setup.count as usize)]
}

fn some_unused<'a>(rng: &mut Rng, setup: &'a mut Setup) -> &'a mut Place {
    &mut setup.places[rng.between(setup.count as usize, PLACES - 1)]
}

/// A row of some item in use, and its recovery row.
fn some_row<'a>(rng: &mut Rng, setup: &'a mut Setup) -> (&'a mut u64, &'a mut u64) {
    let colour = rng.below(COLOURS);
    let place = some_place(rng, setup);
    (&mut place.rows[colour], &mut place.recovery[colour])
}

/// Gives a start value to an item; to a starting one if there is any, so that there are no more.
fn replace_start(rng: &mut Rng, setup: &mut Setup, value: u64) {
    let starting = setup.starting();
    let item = if starting.is_empty() { 0 } else { rng.pick(&starting).0 };
    setup.places[item].start = Some(value);
}

/// Gives a loss value likewise.
fn replace_loss(rng: &mut Rng, setup: &mut Setup, value: u64) {
    let losable = setup.losable();
    let item = if losable.is_empty() { 0 } else { rng.pick(&losable).0 };
    setup.places[item].loss = Some(value);
}

/// A setup with so many starting and losable items.
fn with_values(rng: &mut Rng, starting: usize, losable: usize) -> Setup {
    let count = rng.between(starting.max(losable), PLACES);
    let mut draft = Draft::of_items(count);
    let some = rng.some_of(count, starting);
    draft.set_starting(&some, || rng.below(3) as u64);
    let some = rng.some_of(count, losable);
    draft.set_losable(&some, || rng.below(3) as u64);
    draft.setup()
}

/// A setup with so many edges.
fn with_edges(rng: &mut Rng, edges: usize) -> Setup {
    let count = rng.between(6, PLACES);
    let mut draft = Draft::of_items(count);
    while draft.edges.len() < edges {
        let (from, to) = (rng.below(count), rng.below(count));
        draft.add_edge(from, to, rng.below(COLOURS), rng.chance(1, 4));
    }
    draft.setup()
}

/// Changes one number of the setup a little, in use or not.
fn shake(rng: &mut Rng, setup: &mut Setup) {
    let near = rng.below(setup.count as usize + 2);
    let (here, colour) = (*rng.pick(&[near, 63, 0]), rng.below(COLOURS));
    let bit = 1u64 << *rng.pick(&[near, 63, 0]);
    let place = &mut setup.places[here];
    match rng.below(13) {
        0 => setup.count = (setup.count + 2).saturating_sub(rng.below(5) as u64),
        1 => place.kind = *rng.pick(&[CREDENTIAL, ACCOUNT, b'd']),
        2 => place.start = *rng.pick(&[None, Some(0), Some(MAX_VALUE), Some(MAX_VALUE + 1)]),
        3 => place.loss = *rng.pick(&[None, Some(0), Some(MAX_VALUE), Some(MAX_VALUE + 1)]),
        4 => place.rank = *rng.pick(&[0, 1, MAX_RANK, MAX_RANK + 1]),
        5 => place.rows[colour] ^= bit,
        6 => place.recovery[colour] ^= bit,
        7 => place.rows[colour] = 0,
        8 => setup.held ^= bit,
        9 => setup.opened ^= bit,
        10 => {
            setup.held ^= bit;
            setup.opened ^= bit;
        }
        11 if setup.count <= PLACES as u64 => {
            let held = setup.held ^ bit;
            hold(setup, held);
        }
        _ => {
            place.rows[colour] |= bit;
            place.recovery[colour] |= bit;
        }
    }
}
