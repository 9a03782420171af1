//! The class register with 10,000 records: a hand-in and a withdrawal against marking alone, and the
//! withdrawal against its twin.

use crate::grid::{micros, ratio, Grid};
use crate::kinds::{Kind, ROOM};
use crate::targets::{largest, Target};
use crate::timing::in_turn;
use crate::{proved, Rounds};
use portal::{Record, RegisterResult};
use std::hint::black_box;

const CLASS: usize = 10_000;
/// A student who is in no record.
const NEW: u64 = CLASS as u64;

/// A class in which each student has one record, and one place more.
fn class(target: u64) -> Vec<Record> {
    let record = |student: usize| Record { student: student as u64, target, ..Record::default() };
    (0..=CLASS).map(record).collect()
}

/// The twin of a withdrawal: one pass that moves the others up.
fn twin_withdraw(records: &mut [Record], used: usize, student: u64) -> RegisterResult {
    if used > records.len() {
        return RegisterResult { number: 25, used };
    }
    let mut left = 0;
    for place in 0..used {
        let record = records[place];
        if record.student != student {
            records[left] = record;
            left += 1;
        }
    }
    if left == used {
        return RegisterResult { number: 27, used };
    }
    RegisterResult { number: 0, used: left }
}

/// The opening list of the kind's target, and its length.
fn openings(kind: &Kind) -> Vec<u64> {
    let mut lists = vec![0; ROOM];
    let (opening, _) = proved::both_bases(&kind.words, kind.target, &mut lists);
    lists.truncate(opening);
    lists
}

fn hand_in(kind: &Kind, records: &mut [Record], student: u64, sets: &[u64]) {
    let target = kind.target as u64;
    let words = black_box(&kind.words);
    let answer = portal::hand_in(words, records, CLASS, student, target, false, sets);
    assert_eq!(answer.number, 0, "a hand-in was refused");
    black_box(answer);
}

/// The register's calls on each kind of sheet.
pub fn register(kinds: &[Kind], rounds: &Rounds, targets: &mut Vec<Target>) -> Grid {
    let header = [
        "sheet",
        "marking, µs",
        "new, µs",
        "replaced, µs",
        "withdrawn, µs",
        "its twin, µs",
        "most / marking",
        "proved / twin",
    ];
    let mut grid = Grid::new("The class register with 10,000 records", &header);
    grid.note(
        "The opening list of the target with the longest lists, handed in by a new student, whose record \
         goes behind 10,000 others, and by the last of these; marking alone is `portal_mark_openings` of the \
         same list. A withdrawal is that of the first student, and its twin the same pass in plain Rust.",
    );
    let (mut most, mut twins) = (Vec::new(), Vec::new());
    for kind in kinds {
        let (sets, target) = (openings(kind), kind.target as u64);
        let (mut fresh, mut again) = (class(target), class(target));
        let (mut proved, mut twin) = (class(target), class(target));
        same_answers(target);
        let times = in_turn(
            rounds.points,
            [
                &mut || {
                    black_box(portal::mark_openings(black_box(&kind.words), target, &sets));
                },
                &mut || hand_in(kind, &mut fresh, NEW, &sets),
                &mut || hand_in(kind, &mut again, NEW - 1, &sets),
                // The first student is put back, so that each round has the same to do.
                &mut || {
                    proved[0].student = NEW;
                    black_box(portal::withdraw(&mut proved, CLASS, NEW));
                },
                &mut || {
                    twin[0].student = NEW;
                    black_box(twin_withdraw(&mut twin, CLASS, NEW));
                },
            ],
        );
        let [marking, new, replaced, withdrawn, by_twin] = times;
        let longest = new.max(replaced).max(withdrawn);
        let shown = [marking, new, replaced, withdrawn, by_twin].map(micros);
        let mut row = vec![kind.name.clone()];
        row.extend(shown);
        row.extend([ratio(longest, marking), ratio(withdrawn, by_twin)]);
        grid.row(row);
        most.push((kind.name.clone(), longest / marking));
        twins.push((kind.name.clone(), withdrawn / by_twin));
    }
    let (name, times) = largest(&most);
    let seen = format!("at most {times:.2} ({name})");
    let what = "a call on the register of 10,000 records / marking alone";
    targets.push(Target::measured(what, "at most 2 times", seen, times <= 2.0));
    let (name, times) = largest(&twins);
    let seen = format!("at most {times:.2} ({name})");
    let what = "a withdrawal, proved / twin";
    targets.push(Target::measured(what, "at most 2 times", seen, times <= 2.0));
    grid
}

/// The twin leaves what the proved call leaves.
fn same_answers(target: u64) {
    for (student, used) in
        [(0, CLASS), (NEW - 1, CLASS), (NEW, CLASS), (NEW, CLASS + 1), (0, CLASS + 2)]
    {
        let (mut proved, mut twin) = (class(target), class(target));
        let answer = portal::withdraw(&mut proved, used, student);
        assert_eq!(answer, twin_withdraw(&mut twin, used, student), "{student}");
        assert_eq!(proved, twin, "{student}");
    }
}
