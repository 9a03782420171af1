//! Calls that change a setup: the proved ones beside twins that take it and hand it back by value,
//! beside changing the sheet's text and reading it again, and what question 12's closure of the held
//! set adds to the calls that were there before.

use crate::closing::closure;
use crate::formed::{Whole, EDGES};
use crate::grid::{micros, nanos, ratio, with_commas, Grid};
use crate::kinds::{longest_sheet, Kind, ROOM};
use crate::older::Older;
use crate::targets::{at_most, largest, smallest, Target};
use crate::timing::in_turn;
use crate::twin::VERTICES;
use crate::Rounds;
use brute::cases::living::{edges, random_edit};
use brute::cases::Rng;
use brute::living::{Edit, Named};
use brute::sheet;
use portal::{HELD, OPENED};
use std::hint::black_box;

/// How many calls are timed together: one is too short for the clock.
const CALLS: usize = 1_000;

/// A call of the product, in place.
fn proved(words: &mut [u64], edit: Edit) -> u64 {
    match edit {
        Edit::TakeIn(item) => portal::take_in(words, item),
        Edit::TakeOut(item) => portal::take_out(words, item),
        Edit::Add(Named { from, to, colour }, marked) => {
            portal::add_edge(words, from, to, colour, marked)
        }
        Edit::Remove(Named { from, to, colour }) => portal::remove_edge(words, from, to, colour),
    }
}

/// The twin of the whole call: the setup from its words, the questions in their order, and the new one
/// back to its words.
fn twin(words: &mut [u64], edit: Edit) -> u64 {
    let Some(setup) = Whole::asked(words) else { return 12 };
    match changed(setup, edit) {
        Ok(after) => {
            after.put(words);
            0
        }
        Err(number) => number,
    }
}

/// A setup in, and the changed one out. Taking in goes on from what is open, the others start from what
/// is held.
fn changed(mut setup: Whole, edit: Edit) -> Result<Whole, u64> {
    let count = setup.count as u64;
    let inside = |item: u64| if item < count { Ok(item as usize) } else { Err(13u64) };
    let mut start = None;
    match edit {
        Edit::TakeIn(item) => {
            let set = 1 << inside(item)?;
            setup.held |= set;
            start = Some(setup.opened | set);
        }
        Edit::TakeOut(item) => setup.held &= !(1 << inside(item)?),
        Edit::Add(Named { from, to, colour }, marked) => {
            let (from, to) = (inside(from)?, inside(to)?);
            let colour = if colour < 8 { colour as usize } else { return Err(18) };
            if setup.graph[to][colour] >> from & 1 == 1 {
                return Err(19);
            }
            if setup.edges() >= EDGES {
                return Err(7);
            }
            setup.graph[to][colour] |= 1 << from;
            setup.recovery[to][colour] |= u64::from(marked) << from;
        }
        Edit::Remove(Named { from, to, colour }) => {
            let (from, to) = (inside(from)?, inside(to)?);
            let colour = if colour < 8 { colour as usize } else { return Err(18) };
            if setup.graph[to][colour] >> from & 1 == 0 {
                return Err(20);
            }
            setup.graph[to][colour] &= !(1 << from);
            setup.recovery[to][colour] &= !(1 << from);
        }
    }
    setup.opened = closure(&setup.graph, start.unwrap_or(setup.held)).0;
    Ok(setup)
}

/// A thousand calls on a kind's setup, one after the other. `sort` says which of those that are drawn
/// are kept.
fn list(kind: &Kind, sort: fn(&Edit) -> bool) -> Vec<Edit> {
    let mut rng = Rng::new(8);
    let mut setup = sheet::setup_of(&kind.sheet);
    let mut list = Vec::new();
    while list.len() < CALLS {
        let edit = random_edit(&mut rng, &setup);
        if sort(&edit) {
            if let Ok(after) = edit.on(&setup) {
                setup = after;
            }
            list.push(edit);
        }
    }
    list
}

/// The sorts of lists: what they are called, and which calls they have.
const SORTS: [(&str, fn(&Edit) -> bool); 3] = [
    ("all four", |_| true),
    ("take in and out", |edit| matches!(edit, Edit::TakeIn(_) | Edit::TakeOut(_))),
    ("add and remove", |edit| matches!(edit, Edit::Add(..) | Edit::Remove(_))),
];

/// Every call of the list has the same number and leaves the same words by both; how many are answered.
fn same_answers(kind: &Kind, list: &[Edit]) -> usize {
    let (mut one, mut other) = (kind.words.clone(), kind.words.clone());
    let mut answered = 0;
    for &edit in list {
        let (number, same) = (proved(&mut one, edit), twin(&mut other, edit));
        assert_eq!((number, &one), (same, &other), "{}: {edit:?}", kind.name);
        answered += usize::from(number == 0);
    }
    answered
}

/// The times of one call each, proved and by the twin, on average over the list. Each round begins with
/// the kind's own setup.
fn times(kind: &Kind, list: &[Edit], rounds: usize) -> [f64; 2] {
    let all = |call: fn(&mut [u64], Edit) -> u64| {
        let mut words = kind.words.clone();
        list.iter().for_each(|&edit| {
            black_box(call(black_box(&mut words), black_box(edit)));
        });
    };
    let timed = in_turn(rounds, [&mut || all(proved), &mut || all(twin)]);
    timed.map(|time| time / list.len() as f64)
}

/// Lists of a thousand calls on each kind of sheet.
pub fn changes(kinds: &[Kind], rounds: &Rounds, targets: &mut Vec<Target>) -> Grid {
    let header = ["sheet", "calls", "answered", "proved, ns", "twin, ns", "proved / twin"];
    let mut grid = Grid::new("Calls that change a setup", &header);
    grid.note(&format!(
        "`portal_take_in`, `portal_take_out`, `portal_add_edge` and `portal_remove_edge`, {CALLS} of them \
         one after the other in one buffer, some refused; the time is that of one call on average. The \
         twin takes the setup from the same words, asks the same questions, hands the changed one on by \
         value and writes its words.",
    ));
    let mut ratios = Vec::new();
    for kind in kinds {
        for (name, sort) in SORTS {
            let list = list(kind, sort);
            let answered = same_answers(kind, &list);
            let [time, same] = times(kind, &list, rounds.points);
            let mut row = vec![kind.name.clone(), name.to_string(), answered.to_string()];
            row.extend([nanos(time), nanos(same), ratio(time, same)]);
            grid.row(row);
            ratios.push((format!("{}, {name}", kind.name), time / same));
        }
    }
    let what = "a call that changes a setup, proved / twin by value";
    targets.push(at_most(what, 1.3, &ratios).because(
        "Each call copies the setup, some 10 KB, more than one time, and both graphs besides where an \
         edge changes.",
    ));
    grid
}

/// The sheet's text without the last of its edge rows, and that edge.
fn without_last_edge(kind: &Kind) -> (usize, Named) {
    let text = &kind.sheet;
    let start = text[..text.len() - 1].iter().rposition(|&byte| byte == b'\n');
    let start = start.expect("a sheet has several lines") + 1;
    let (more, less) = (sheet::setup_of(text), sheet::setup_of(&text[..start]));
    let kept = edges(&less);
    let gone = edges(&more).into_iter().find(|edge| !kept.contains(edge));
    (start, gone.expect("the last row is an edge"))
}

/// Removing an edge and adding it again, by calls and by changing the sheet's text: the row goes, the
/// text is read, and the held set closed; then the row comes back, and the same again.
pub fn against_reading(kinds: &[Kind], rounds: &Rounds, targets: &mut Vec<Target>) -> Grid {
    let header = ["sheet", "bytes", "two calls, µs", "text and reading, µs", "reading / calls"];
    let mut grid = Grid::new("Changing a setup, and changing a sheet and reading it", &header);
    grid.note(
        "An edge is removed and added again with the initial items held: by `portal_remove_edge` and \
         `portal_add_edge`; and by the sheet's last row, which is taken out of the text and put back, each \
         time with `portal_read` and `portal_closure` of what is held. The target is that of the longest \
         accepted sheet; what the others come to at least is told beside it.",
    );
    let longest = longest_sheet();
    let mut ratios = Vec::new();
    for kind in kinds.iter().chain([&longest]) {
        let [calls, reading] = remove_and_add(kind, rounds.calls);
        let bytes = with_commas(kind.sheet.len() as u64);
        let row = [bytes, micros(calls), micros(reading), ratio(reading, calls)];
        grid.row([vec![kind.name.clone()], row.to_vec()].concat());
        ratios.push((kind.name.clone(), reading / calls));
    }
    let (_, last) = ratios.pop().expect("the longest sheet is the last");
    let (name, least) = smallest(&ratios);
    let what = "changing the sheet's text and reading it / calls, on the longest accepted sheet";
    let seen = format!("{last:.1} times; on the other sheets at least {least:.1} ({name})");
    targets.push(Target::measured(what, "at least 10 times", seen, last >= 10.0));
    grid
}

/// The times of both ways.
fn remove_and_add(kind: &Kind, rounds: usize) -> [f64; 2] {
    let (start, Named { from, to, colour }) = without_last_edge(kind);
    let held = kind.setup.chosen(false);
    let mut words = kind.words.clone();
    (0..VERTICES as u64).filter(|v| held >> v & 1 == 1).for_each(|v| {
        assert_eq!(portal::take_in(&mut words, v), 0, "{}: an initial item", kind.name);
    });
    let marked = words[769 + 8 * to as usize + colour as usize] >> from & 1 == 1;
    let (row, mut text) = (kind.sheet[start..].to_vec(), kind.sheet.clone());
    let (before, mut read) = (words.clone(), words.clone());
    let two_calls = |words: &mut [u64]| {
        assert_eq!(portal::remove_edge(black_box(words), from, to, colour), 0);
        assert_eq!(portal::add_edge(black_box(words), from, to, colour, marked), 0);
    };
    let mut reread = |text: &[u8]| {
        assert_eq!(portal::read(black_box(text), &mut read).number, 0);
        read[OPENED] = portal::closure(&read, held).set;
        read[HELD] = held;
        black_box(&read);
    };
    let times = in_turn(
        rounds,
        [&mut || two_calls(&mut words), &mut || {
            text.truncate(start);
            reread(&text);
            text.extend_from_slice(&row);
            reread(&text);
        }],
    );
    assert!(words == before && read == before, "{}: another setup in the end", kind.name);
    times
}

/// What question 12's closure adds where nothing is held: calls of this library and of an older one.
pub fn nothing_held(kinds: &[Kind], rounds: &Rounds, targets: &mut Vec<Target>) -> Grid {
    let what = "what question 12's closure adds to other calls, where nothing is held";
    let header = ["sheet", "call", "before, ns", "now, ns", "more, ns"];
    let mut grid = Grid::new("Question 12 where nothing is held", &header);
    let Some(older) = Older::named() else {
        grid.note(
            "Not measured in this run: `PORTAL_OLDER` names no library from before held sets.",
        );
        targets.push(Target::not_measured(what, "under 1 µs", "no older library was named"));
        return grid;
    };
    grid.note(
        "`portal_check`, `portal_closure` of the initial items and `portal_lists` of the target with the \
         longest lists, by the library that `PORTAL_OLDER` names, which knows no held set, and by this one, \
         in turn. The target is judged by the first two, a thousand of which are timed together; a list \
         is timed alone, and its rows are shown with them.",
    );
    let mut more = Vec::new();
    for kind in kinds {
        for (name, [before, now]) in both_libraries(kind, &older, rounds.calls) {
            let added = nanos_between(before, now);
            grid.row(vec![kind.name.clone(), name.into(), nanos(before), nanos(now), added]);
            more.push((format!("{}, {name}", kind.name), now - before));
        }
    }
    let check: Vec<_> = more.into_iter().filter(|(name, _)| !name.ends_with("lists")).collect();
    let (worst, most) = largest(&check);
    let seen = format!("at most {} ns ({worst})", nanos(most));
    targets.push(Target::measured(what, "under 1 µs", seen, most < 1e-6));
    grid
}

/// The difference of two times, in nanoseconds; it may be below 0.
fn nanos_between(before: f64, now: f64) -> String {
    format!("{:.0}", (now - before) * 1e9)
}

/// The times of each call, before and now.
fn both_libraries(kind: &Kind, older: &Older, rounds: usize) -> [(&'static str, [f64; 2]); 3] {
    let (words, target, set) = (&kind.words, kind.target as u64, kind.setup.chosen(false));
    let mut lists = [vec![0; ROOM], vec![0; ROOM]];
    let [one, other] = &mut lists;
    let (was, is) = (older.lists(words, target, one), portal::lists(words, target, other));
    assert_eq!((was.number, was.values), (is.number, [is.openings, is.lockouts]));
    let (was, is) = (older.closure(words, set), portal::closure(words, set));
    assert_eq!((was.number, was.values), (is.number, [is.set, is.passes]));
    let many = |work: &dyn Fn()| (0..CALLS).for_each(|_| work());
    let check = in_turn(
        rounds,
        [&mut || many(&|| assert_eq!(black_box(older.check(black_box(words))), 0)), &mut || {
            many(&|| assert_eq!(black_box(portal::check(black_box(words))), 0))
        }],
    );
    let closures = in_turn(
        rounds,
        [
            &mut || many(&|| assert_eq!(black_box(older.closure(black_box(words), set)).number, 0)),
            &mut || {
                many(&|| assert_eq!(black_box(portal::closure(black_box(words), set)).number, 0))
            },
        ],
    );
    let lists = in_turn(
        rounds,
        [
            &mut || {
                black_box(older.lists(black_box(words), target, one));
            },
            &mut || {
                black_box(portal::lists(black_box(words), target, other));
            },
        ],
    );
    let each = |times: [f64; 2]| times.map(|time| time / CALLS as f64);
    [("check", each(check)), ("closure", each(closures)), ("lists", lists)]
}
