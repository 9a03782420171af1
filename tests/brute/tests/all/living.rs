//! The calls that change a setup, against answers worked out by hand, against a drawing that is kept
//! beside the setup and written as a sheet, and against all setups that lists of calls reach.

use crate::accepted;
use brute::cases::draft::Draft;
use brute::cases::living::{beginning, living_cases, random_edit, redrawing, Met, CALLS, LISTS};
use brute::cases::setups::{malformed_living, malformed_setups};
use brute::cases::Rng;
use brute::living::{self, Edit, Named};
use brute::register::{hand_in, Attempt, Record};
use brute::setup::MAX_EDGES;
use brute::{Calls, Setup};
use std::collections::{BTreeMap, BTreeSet, HashSet};

#[test]
fn answers_worked_out_by_hand() {
    for case in living_cases() {
        let label = &case.case.label;
        let mut setup = accepted(&case.case.sheet).setup;
        assert_eq!((setup.held, setup.opened), (0, 0), "{label}: after reading");
        if let Some((item, before, _)) = case.backdoor {
            assert_eq!(Calls::new(&setup).backdoor(item), Ok(before), "{label}");
        }
        for step in &case.steps {
            let edit = step.edit;
            let before = setup.clone();
            let (numbers, after) = living::run(&setup, &[edit]);
            assert_eq!(numbers, [step.number], "{label}: {edit:?}");
            assert_eq!((after.held, after.opened), (step.held, step.opened), "{label}: {edit:?}");
            assert!(step.number == 0 || after == before, "{label}: {edit:?} touched the setup");
            assert!(after.well_formed(), "{label}: {edit:?}");
            setup = after;
        }
        if let Some((item, _, after)) = case.backdoor {
            assert_eq!(Calls::new(&setup).backdoor(item), Ok(after), "{label}");
        }
    }
}

/// Edges by their ends and colours, with their marks, and what is held: changed by each accepted call
/// as the call's words say, and in no other way.
struct Drawing {
    edges: BTreeMap<(u64, u64, u64), bool>,
    held: BTreeSet<u64>,
}

impl Drawing {
    fn of(draft: &Draft) -> Drawing {
        let named = draft
            .edges
            .iter()
            .map(|edge| ((edge.from as u64, edge.to as u64, edge.colour as u64), edge.recovery));
        Drawing { edges: named.collect(), held: BTreeSet::new() }
    }

    fn change(&mut self, edit: Edit) {
        match edit {
            Edit::TakeIn(item) => self.held.insert(item),
            Edit::TakeOut(item) => self.held.remove(&item),
            Edit::Add(Named { from, to, colour }, marked) => {
                self.edges.insert((from, to, colour), marked).is_none()
            }
            Edit::Remove(Named { from, to, colour }) => {
                self.edges.remove(&(from, to, colour)).is_some()
            }
        };
    }

    /// The sheet with the same items and these edges, the held items and what they open there.
    fn said(&self, items: &Draft) -> Setup {
        let mut draft = Draft { items: items.items.clone(), edges: Vec::new() };
        for (&(from, to, colour), &marked) in &self.edges {
            draft.add_edge(from as usize, to as usize, colour as usize, marked);
        }
        let mut setup = accepted(draft.text()).setup;
        setup.held = self.held.iter().fold(0, |set, item| set | 1 << item);
        setup.opened = Calls::new(&accepted(draft.text()).setup).closure(setup.held).unwrap();
        setup
    }
}

#[test]
fn what_is_opened_is_the_closure_in_the_graph_that_is_left() {
    let mut rng = Rng::new(81);
    let mut met = Met::default();
    for number in 0..LISTS {
        let draft = beginning(&mut rng, number);
        let mut drawing = Drawing::of(&draft);
        let mut setup = accepted(draft.text()).setup;
        for _ in 0..rng.between(1, CALLS) {
            let edit = random_edit(&mut rng, &setup);
            let (numbers, after) = living::run(&setup, &[edit]);
            met.count(&setup, edit, numbers[0], &after);
            if numbers[0] == 0 {
                drawing.change(edit);
            }
            assert!(numbers[0] == 0 || after == setup, "{number}: {edit:?}");
            setup = after;
        }
        assert_eq!(setup, drawing.said(&draft), "list {number}");
    }
    assert!(met.too_few().is_empty(), "too few: {:?} of {met:?}", met.too_few());
}

/// All calls on two items and one colour, in the setup's bounds and just beyond them.
fn every_edit(items: u64, colours: u64) -> Vec<Edit> {
    let mut edits = Vec::new();
    for item in 0..=items {
        edits.extend([Edit::TakeIn(item), Edit::TakeOut(item)]);
        for to in 0..=items {
            for colour in (0..colours).chain([8]) {
                let edge = Named { from: item, to, colour };
                edits.extend([Edit::Add(edge, false), Edit::Add(edge, true), Edit::Remove(edge)]);
            }
        }
    }
    edits
}

/// What of a setup of two items is changed by calls: rows and recovery rows, held and opened.
fn changing(setup: &Setup) -> Vec<u64> {
    let rows = setup.places[..2].iter().flat_map(|place| [place.rows[0], place.recovery[0]]);
    rows.chain([setup.held, setup.opened]).collect()
}

#[test]
fn question_12_is_a_yes_exactly_for_what_lists_of_calls_reach() {
    let fresh = accepted("name kind start loss rank\np a 1 1 0\nq a - - 0\n\nfrom to colour rec\n");
    let mut reached = HashSet::from([changing(&fresh.setup)]);
    let mut left = vec![fresh.setup.clone()];
    let edits = every_edit(2, 1);
    while let Some(setup) = left.pop() {
        for edit in &edits {
            if let Ok(after) = edit.on(&setup) {
                if reached.insert(changing(&after)) {
                    left.push(after);
                }
            }
        }
    }
    // Every edge is not there, there or marked: 81 drawings, each with 4 held sets.
    assert_eq!(reached.len(), 81 * 4);
    let mut yes = 0;
    for number in 0..1u64 << 16 {
        let part = |place: u64, bits: u64| number >> place & ((1 << bits) - 1);
        let mut setup = fresh.setup.clone();
        for (place, item) in [(0, 0), (4, 1)] {
            setup.places[item].rows[0] = part(place, 2);
            setup.places[item].recovery[0] = part(place + 2, 2);
        }
        // An item beyond the count too.
        (setup.held, setup.opened) = (part(8, 3), part(11, 3));
        assert_eq!(setup.well_formed(), reached.contains(&changing(&setup)), "{setup}");
        yes += usize::from(setup.well_formed());
    }
    // The last two bits are not looked at: each setup was met four times.
    assert_eq!(yes, 4 * 81 * 4);
}

#[test]
fn a_malformed_setup_gets_12_before_all_else() {
    let mut rng = Rng::new(82);
    for case in malformed_setups(83, 5) {
        let some = Named { from: 0, to: 0, colour: 0 };
        let none = Named { from: 64, to: u64::MAX, colour: 9 };
        let fixed = [Edit::TakeIn(0), Edit::TakeOut(64), Edit::Add(some, true), Edit::Remove(none)];
        for edit in fixed.into_iter().chain([random_edit(&mut rng, &case.setup)]) {
            assert_eq!(edit.on(&case.setup), Err(12), "{}: {edit:?}", case.label);
        }
    }
    assert!(malformed_living(1, 1).len() >= 20);
}

#[test]
fn a_stale_opened_set_gets_12_from_every_call() {
    let attempt = Attempt { student: 7, target: 0, lock: false, sets: Vec::new() };
    for case in malformed_living(84, 10) {
        let label = &case.label;
        assert!(case.setup.nothing_held().well_formed(), "{label}");
        let calls = Calls::new(&case.setup);
        assert_eq!(
            (calls.closure(0), calls.lost_set(0), calls.passes(0)),
            (Err(12), Err(12), Err(12))
        );
        assert_eq!(calls.way_in(0, 0, &mut [], &mut []), Err(12), "{label}");
        assert_eq!(calls.opens(0, 0), Err(12), "{label}");
        assert_eq!(calls.lists(0, &mut []), Err(12), "{label}");
        assert_eq!(calls.cut_sets(0, &mut []), Err(12), "{label}");
        assert_eq!((calls.forecast(0), calls.kinds(0, &[])), (Err(12), Err(12)), "{label}");
        assert_eq!(calls.next_opening(0, 0), Err(12), "{label}");
        assert_eq!(calls.bag_score(0), Err(12), "{label}");
        assert_eq!((calls.score(0), calls.risk(0)), (Err(12), Err(12)), "{label}");
        assert_eq!(calls.mark_openings(0, &[]), Err(12), "{label}");
        assert_eq!(calls.mark_lockouts(0, &[]), Err(12), "{label}");
        assert_eq!((calls.backdoor(0), calls.idle(0)), (Err(12), Err(12)), "{label}");
        assert_eq!(calls.out_of_rank(0, 0), Err(12), "{label}");
        let mut records = [Record::default()];
        assert_eq!(hand_in(&calls, &mut records, 0, &attempt), (12, 0), "{label}");
        assert_eq!(hand_in(&calls, &mut records, 2, &attempt), (25, 2), "{label}: 25 is first");
        assert_eq!(records, [Record::default()], "{label}");
    }
}

#[test]
fn redrawn_setups_change_and_keep_their_items() {
    let mut rng = Rng::new(9);
    let (mut steps, mut changed) = (0, 0);
    for number in 0..120 {
        let mut setup = accepted(beginning(&mut rng, number).text()).setup;
        let items = setup.places.map(|place| (place.kind, place.start, place.loss, place.rank));
        for _ in 0..20 {
            let edit = redrawing(&mut rng, &setup);
            let (numbers, after) = living::run(&setup, &[edit]);
            assert!([0, 7, 19].contains(&numbers[0]), "{number}: {edit:?}");
            let kept = after.places.map(|place| (place.kind, place.start, place.loss, place.rank));
            assert_eq!(items, kept, "{number}: {edit:?}");
            assert_eq!((numbers[0] == 0), after != setup, "{number}: {edit:?}");
            steps += 1;
            changed += usize::from(after != setup);
            setup = after;
        }
    }
    assert!(changed * 2 > steps, "{changed} of {steps} calls changed the drawing");
}

#[test]
fn a_full_drawing_has_256_edges() {
    let case = living_cases().into_iter().find(|case| case.case.label.ends_with("256 edges"));
    let sheet = case.expect("there is such a case").case.sheet;
    assert_eq!(accepted(sheet).setup.edges(), MAX_EDGES);
}
