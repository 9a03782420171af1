//! Closures, lost sets, ways in, lists, least sums and marks, against other ways to say them.

use crate::{accepted, calls};
use brute::cases::bounds::largest_sums;
use brute::cases::chains::known_passes;
use brute::cases::probes::{hand_ins, sets_within};
use brute::cases::random::{at_least, random_sheets};
use brute::cases::tiny::{all_marked, all_unmarked};
use brute::cases::{Rng, SetupCase};
use brute::lists::Table;
use brute::report::{portal_risk, portal_score, report};
use brute::setup::{holds, take_in, within, COLOURS, MAX_STARTING, MAX_VALUE};
use brute::{graph, Calls, Least, Marks, Setup};

/// Whether an item has a colour all of which is in the set (003, definition 3).
fn opens(setup: &Setup, item: usize, set: u64) -> bool {
    let rows = setup.places[item].rows;
    (0..COLOURS).any(|colour| rows[colour] != 0 && within(rows[colour], set))
}

/// Whether an item has a colour, and each has an item in the set (003, definition 18).
fn locks(setup: &Setup, item: usize, set: u64) -> bool {
    let rows = setup.places[item].rows;
    rows.iter().any(|&row| row != 0) && rows.iter().all(|&row| row == 0 || row & set != 0)
}

/// The smallest set with `given` that is closed under a rule: what all such sets share.
fn smallest_closed(setup: &Setup, given: u64, rule: fn(&Setup, usize, u64) -> bool) -> u64 {
    let items = 0..setup.count as usize;
    let closed = |set: u64| items.clone().all(|item| holds(set, item) || !rule(setup, item, set));
    let all = 0..=setup.all_items();
    all.filter(|&set| within(given, set) && closed(set)).fold(u64::MAX, |shared, set| shared & set)
}

/// Setups of few items, tiny and random.
fn small_setups() -> impl Iterator<Item = SetupCase> {
    let random = random_sheets(11, 1_200).filter_map(|case| {
        let setup = accepted(&case.sheet).setup;
        (setup.count <= 7).then_some(SetupCase { label: case.label, setup })
    });
    all_unmarked().chain(all_marked(101)).chain(random)
}

#[test]
fn closures_and_lost_sets_are_the_smallest_closed_sets() {
    for case in small_setups() {
        let setup = &case.setup;
        for set in (0..=setup.all_items()).step_by(if setup.count > 3 { 5 } else { 1 }) {
            let closure = smallest_closed(setup, set, opens);
            assert_eq!(graph::closure(setup, set), closure, "{} {set:b}", case.label);
            let lost = smallest_closed(setup, set, locks);
            assert_eq!(graph::lost_set(setup, set), lost, "{} {set:b}", case.label);
        }
    }
}

/// The least number of steps, one upon the other, that an item takes: 0 in the set, else by some
/// colour one more than the needed item that takes most. By rounds, until nothing is less.
fn heights(setup: &Setup, set: u64) -> Vec<Option<usize>> {
    let items = 0..setup.count as usize;
    let mut heights: Vec<Option<usize>> =
        items.clone().map(|i| holds(set, i).then_some(0)).collect();
    loop {
        let before = heights.clone();
        for item in items.clone() {
            let rows = setup.places[item].rows.into_iter().filter(|&row| row != 0);
            let most = |row: u64| {
                let needed = items.clone().filter(move |&other| holds(row, other));
                needed.map(|other| before[other]).try_fold(0, |most, one| Some(one?.max(most)))
            };
            let least = rows.filter_map(most).min().map(|most| most + 1);
            heights[item] = [before[item], least].into_iter().flatten().min();
        }
        if heights == before {
            return heights;
        }
    }
}

#[test]
fn passes_are_one_more_than_the_highest_item() {
    for case in small_setups() {
        let setup = &case.setup;
        for set in (0..=setup.all_items()).step_by(if setup.count > 3 { 5 } else { 1 }) {
            let heights = heights(setup, set);
            let highest = heights.iter().flatten().max().copied().unwrap_or(0);
            let passes = graph::passes(setup, set);
            assert_eq!(passes, highest + 1, "{} {set:b}", case.label);
            let outside = setup.count as usize - set.count_ones() as usize;
            assert!(passes <= outside + 1, "{} {set:b}", case.label);
            assert_eq!(passes == 1, graph::closure(setup, set) == set, "{} {set:b}", case.label);
        }
    }
}

#[test]
fn passes_that_are_known() {
    for case in known_passes() {
        let setup = accepted(&case.sheet).setup;
        assert_eq!(graph::passes(&setup, case.set), case.passes, "{}", case.label);
    }
}

#[test]
fn ways_in_are_derivations_of_lowest_choices() {
    let mut rng = Rng::new(12);
    for case in small_setups().chain(random_setups(13, 1_000)) {
        let setup = &case.setup;
        for set in sets_within(&mut rng, setup.count, 3) {
            for target in 0..setup.count as usize {
                hold_way_in(setup, set, target, &case.label);
            }
        }
    }
}

fn hold_way_in(setup: &Setup, set: u64, target: usize, label: &str) {
    let opened = holds(graph::closure(setup, set), target);
    let Some(way) = graph::way_in(setup, set, target) else {
        assert!(!opened, "{label}: shut from {set:b} to {target}");
        return;
    };
    let mut held = set;
    for &(item, colour) in &way {
        assert!(!holds(held, target), "{label}: goes on behind the target");
        let lowest = (0..64).find(|&other| !holds(held, other) && opens(setup, other, held));
        assert_eq!(lowest, Some(item as usize), "{label}");
        let rows = setup.places[item as usize].rows;
        let complete = |colour: usize| rows[colour] != 0 && within(rows[colour], held);
        assert!(complete(colour as usize) && !(0..colour as usize).any(complete), "{label}");
        held = take_in(held, u64::from(item));
    }
    assert!(opened && holds(held, target), "{label}: from {set:b} to {target}");
}

fn random_setups(seed: u64, count: usize) -> impl Iterator<Item = SetupCase> {
    random_sheets(seed, count)
        .map(|case| SetupCase { label: case.label, setup: accepted(&case.sheet).setup })
}

/// The list as 003's appendix makes it: by rising size, skipping what contains a set found.
fn list_by_size(members: &[(usize, u64)], target: usize, spread: impl Fn(u64) -> u64) -> Vec<u64> {
    let mut found: Vec<u64> = Vec::new();
    for size in 0..=members.len() as u32 {
        for number in (0..1u64 << members.len()).filter(|number| number.count_ones() == size) {
            let chosen = members.iter().enumerate().filter(|(place, _)| holds(number, *place));
            let set = chosen.fold(0, |set, (_, member)| take_in(set, member.0 as u64));
            if !found.iter().any(|&earlier| within(earlier, set)) && holds(spread(set), target) {
                found.push(set);
            }
        }
    }
    found
}

#[test]
fn lists_and_least_sums() {
    for case in small_setups().chain(random_setups(14, 240)) {
        let calls = Calls::new(&case.setup);
        let setup = calls.setup();
        for target in 0..setup.count as usize {
            let openings =
                list_by_size(&setup.starting(), target, |set| graph::closure(setup, set));
            assert_eq!(calls.opening_list(target as u64), Ok(&openings[..]), "{}", case.label);
            let lockouts =
                list_by_size(&setup.losable(), target, |set| graph::lost_set(setup, set));
            assert_eq!(calls.lockout_list(target as u64), Ok(&lockouts[..]), "{}", case.label);
            for table in [calls.openings(), calls.lockouts()] {
                assert_eq!(table.least(target), table.least_of_all(target), "{}", case.label);
            }
        }
    }
}

/// Marks as 01 states them, one set after the other, against the right list alone.
fn marks_by_list(list: &[u64], members: u64, reaches: impl Fn(u64) -> bool, sets: &[u64]) -> Marks {
    let mut marks = Marks { missing: list.len(), ..Marks::default() };
    let mut seen = std::collections::HashSet::new();
    for &set in sets {
        if !seen.insert(set) {
            marks.repeated += 1;
        } else if list.contains(&set) {
            marks.right += 1;
            marks.missing -= 1;
        } else if within(set, members) && reaches(set) {
            marks.loose += 1;
        } else {
            marks.shut += 1;
        }
    }
    marks
}

#[test]
fn marks_of_handed_in_lists() {
    let mut rng = Rng::new(15);
    let mut some = Marks::default();
    for case in random_setups(16, 360) {
        let calls = Calls::new(&case.setup);
        let setup = calls.setup();
        let as_set = |members: Vec<(usize, u64)>| {
            members.iter().fold(0, |set, member| take_in(set, member.0 as u64))
        };
        let (starting, losable) = (as_set(setup.starting()), as_set(setup.losable()));
        for target in 0..setup.count {
            let list = calls.opening_list(target).expect("an item");
            let opens = |set| holds(graph::closure(setup, set), target as usize);
            for hand_in in hand_ins(&mut rng, list, starting, setup.count) {
                let marks = calls.mark_openings(target, &hand_in.sets).expect("an item");
                assert_eq!(marks, marks_by_list(list, starting, opens, &hand_in.sets));
                let right = ["right", "backwards", "shuffled"].contains(&hand_in.label);
                let wrong = ["twice", "one missing", "one repeated"].contains(&hand_in.label);
                assert!(!right || marks.full(), "{}", hand_in.label);
                assert!(!wrong || list.is_empty() || !marks.full(), "{}", hand_in.label);
                some.loose += marks.loose;
                some.shut += marks.shut;
            }
            let list = calls.lockout_list(target).expect("an item");
            let locks = |set| holds(graph::lost_set(setup, set), target as usize);
            for hand_in in hand_ins(&mut rng, list, losable, setup.count) {
                let marks = calls.mark_lockouts(target, &hand_in.sets).expect("an item");
                assert_eq!(marks, marks_by_list(list, losable, locks, &hand_in.sets));
            }
        }
    }
    assert!(some.loose > 1_000 && some.shut > 1_000, "{some:?}");
}

#[test]
fn never_is_above_every_number_and_equal_to_itself() {
    assert!(Least::Sum(u64::MAX) < Least::Never && Least::Never <= Least::Never);
    assert!(Least::Sum(3) < Least::Sum(4));
}

#[test]
fn item_63_and_sums_at_the_bound() {
    let mut setup = at_least(7, 14).setup();
    for place in &mut setup.places {
        (place.start, place.loss) = (None, None);
    }
    setup.count = 64;
    for item in [2, 50, 62, 63] {
        setup.places[item].start = Some(MAX_VALUE);
    }
    setup.places[40].rows = [1 << 63, 1 << 62 | 1 << 2, 1 << 50, 0, 0, 0, 0, 0];
    let list = [1 << 50, 1 << 63, 1 << 62 | 1 << 2];
    let calls = Calls::new(&setup);
    assert_eq!(calls.opening_list(40), Ok(&list[..]));
    assert_eq!(calls.mark_openings(40, &list).map(|marks| marks.full()), Ok(true));
}

/// The score and the risk of an item, and as the portal's numbers.
fn hold_sums(sheet: &[u8], item: u64, score: u64, risk: u64) {
    let calls = calls(sheet);
    assert_eq!(
        (calls.score(item), calls.risk(item)),
        (Ok(Least::Sum(score)), Ok(Least::Sum(risk)))
    );
    assert_eq!((portal_score(sheet, item), portal_risk(sheet, item)), (score, risk));
}

#[test]
fn sums_of_the_largest_values() {
    let [fourteen, halves] = &largest_sums()[..] else { panic!("two sheets") };
    let (one, all) = (MAX_VALUE, MAX_STARTING as u64 * MAX_VALUE);
    hold_sums(&fourteen.sheet, 14, all, one);
    hold_sums(&fourteen.sheet, 16, one, all);
    let text = String::from_utf8(report(&fourteen.sheet)).expect("a text");
    let items: Vec<String> = (0..14).map(|item| format!("x{item}")).collect();
    for row in ["x14 open 14 56000000000 ", "x16 lock 14 56000000000 "] {
        let row = format!("{row}{}", items.join("+"));
        assert_eq!(text.lines().filter(|line| **line == row).count(), 1, "{row}");
    }
    for row in ["x14 56000000000 4000000000 no yes", "x16 4000000000 56000000000 no yes"] {
        assert!(text.lines().any(|line| line == row), "{row}");
    }
    hold_sums(&halves.sheet, 4, one, 6_000_000_000);
    hold_sums(&halves.sheet, 5, one - 1, 5_999_999_999);
    hold_sums(&halves.sheet, 6, 6_000_000_000, one);
    hold_sums(&halves.sheet, 7, 5_999_999_999, one - 1);
}

#[test]
fn the_longest_lists() {
    let draft = at_least(7, 14);
    let target = draft.items.len() - 1;
    assert_eq!(draft.items.len(), 63);
    let calls = Calls::new(&accepted(draft.text()).setup);
    let mut lent = vec![0; 6_435];
    assert_eq!(calls.lists(target as u64, &mut lent), Ok((3_432, 3_003)));
    assert!(lent[..3_432].iter().all(|set| set.count_ones() == 7));
    assert!(lent[3_432..].iter().all(|set| set.count_ones() == 8));
    assert!(lent[..3_432].is_sorted() && lent[3_432..].is_sorted());
    assert_eq!(calls.lists(target as u64, &mut lent[..6_434]), Err(15));
    assert_eq!(calls.score(target as u64), Ok(Least::Sum(7)));
}

#[test]
fn tables_of_no_members() {
    let table = Table::new(Vec::new(), |set| set);
    assert_eq!((table.list(0), table.least(0)), (&[][..], Least::Never));
    let marks = Marks { shut: 2, repeated: 1, ..Marks::default() };
    assert_eq!(table.marks(0, &[0, 1, 0]), marks);
}
