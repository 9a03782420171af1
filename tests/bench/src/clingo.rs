//! One target's opening list by clingo: Debian's gringo (grounding) and clasp (solving), and the
//! program clingo of the same package, which does both. `apt-get install gringo clasp` installs them;
//! without them this part is left out.

use crate::grid::{micros, millis, ratio, with_commas, Grid};
use crate::kinds::{Kind, ROOM};
use crate::programs::{printed, Programs};
use crate::proved;
use crate::targets::{smallest, Target};
use crate::timing::{in_turn, median, processor_time};
use crate::twin::members;
use crate::Rounds;
use std::hint::black_box;
use std::path::{Path, PathBuf};
use std::process::Command;

const ENCODING: &str = include_str!("opening.lp");

/// Enumerates the answer sets whose shown atoms are minimal: these are taken as false first, and what
/// was found rules out all that has more.
const MINIMAL: [&str; 5] =
    ["--heuristic=Domain", "--dom-mod=5,16", "--enum-mode=domRec", "--models=0", "--verbose=0"];
/// The same, and nothing is printed.
const QUIET: [&str; 6] = [MINIMAL[0], MINIMAL[1], MINIMAL[2], MINIMAL[3], MINIMAL[4], "--quiet=2"];

/// How clasp ends where it has found something and has searched all.
const EXHAUSTED: i32 = 30;
/// A ground program that says nothing.
const NOTHING: &[u8] = b"asp 1 0 0\n0\n";

/// The target that clingo is held to.
const WHAT: &str = "one target's opening list, clingo / proved";
const BOUND: &str = "at least 10 times";

/// Whether all three programs can be started.
fn installed() -> bool {
    let starts = |name: &&str| Command::new(name).arg("--version").output().is_ok();
    ["gringo", "clasp", "clingo"].iter().all(starts)
}

/// The encoding with a sheet's facts.
fn logic_program(kind: &Kind) -> String {
    let mut text = ENCODING.to_string();
    members(kind.setup.chosen(false)).for_each(|v| text += &format!("initial({v}).\n"));
    for (v, rows) in kind.setup.graph.iter().enumerate() {
        for (colour, &row) in rows.iter().enumerate() {
            members(row).for_each(|u| text += &format!("needs({v},{colour},{u}).\n"));
        }
    }
    text + &format!("target({}).\n", kind.target)
}

/// The sets that clasp prints, in a list's order.
fn sets(printed: &[u8]) -> Vec<u64> {
    let text = String::from_utf8_lossy(printed);
    let vertex = |atom: &str| -> usize {
        let number = atom.trim_start_matches("chosen(").trim_end_matches(')');
        number.parse().expect("an atom of clasp's is a chosen vertex")
    };
    let set = |line: &str| line.split(' ').fold(0, |set, atom| set | 1 << vertex(atom));
    let answers = text.lines().filter(|line| line.starts_with("chosen("));
    let mut sets: Vec<u64> = answers.map(set).collect();
    sets.sort_unstable_by_key(|set: &u64| (set.count_ones(), *set));
    sets
}

/// What the programs need for a sheet's target.
struct Asked {
    /// The text for gringo and clingo, the ground program for clasp, and the sheet.
    text: PathBuf,
    ground: PathBuf,
    sheet: PathBuf,
    /// The setup without losable vertices, so that the lockout list is empty.
    opening: Kind,
}

impl Asked {
    fn new(kind: &Kind, programs: &Programs) -> Asked {
        let text = programs.input(&kind.name, "lp", logic_program(kind).as_bytes());
        let ground = printed(Path::new("gringo"), &[], &text);
        let ground = programs.input(&kind.name, "aspif", &ground);
        let sheet = programs.input(&kind.name, "sheet", &kind.sheet);
        let opening = Kind::of_words(&kind.name, kind.words_without_losable());
        Asked { text, ground, sheet, opening: Kind { target: kind.target, ..opening } }
    }

    /// Fails where clasp or clingo lists otherwise than the proved call. Gives the list's length.
    fn same_lists(&self) -> usize {
        let mut list = vec![0; ROOM];
        let kind = &self.opening;
        let (count, none) = proved::both_bases(&kind.words, kind.target, &mut list);
        assert_eq!(none, 0, "{}: nothing is losable", kind.name);
        for (program, input) in [("clasp", &self.ground), ("clingo", &self.text)] {
            let found = sets(&printed(Path::new(program), &MINIMAL, input));
            assert!(found == list[..count], "{}: {program} lists otherwise", kind.name);
        }
        count
    }

    /// The proved call's time.
    fn proved(&self, rounds: usize) -> f64 {
        let mut list = vec![0; ROOM];
        let Kind { words, target, .. } = &self.opening;
        let mut work = || {
            black_box(proved::both_bases(black_box(words), *target, &mut list));
        };
        let [time] = in_turn(rounds, [&mut work]);
        time
    }

    /// The processor times of gringo, clasp, clingo, clasp where there is nothing to do, and `report`.
    fn processes(&self, report: &Path, nothing: &Path, rounds: usize) -> [f64; 5] {
        let mut times: [Vec<f64>; 5] = Default::default();
        for _ in 0..rounds {
            times[0].push(processor_time(Path::new("gringo"), &[], &self.text, 0));
            times[1].push(processor_time(Path::new("clasp"), &QUIET, &self.ground, EXHAUSTED));
            times[2].push(processor_time(Path::new("clingo"), &QUIET, &self.text, EXHAUSTED));
            times[3].push(processor_time(Path::new("clasp"), &QUIET, nothing, EXHAUSTED));
            times[4].push(processor_time(report, &[], &self.sheet, 0));
        }
        times.map(median)
    }
}

/// One target's opening list on each kind of sheet, where clingo is installed.
pub fn opening_lists(
    kinds: &[Kind],
    programs: &Programs,
    rounds: &Rounds,
    targets: &mut Vec<Target>,
) -> Option<Grid> {
    if !installed() {
        targets.push(Target::not_measured(WHAT, BOUND, "gringo and clasp are not installed"));
        return None;
    }
    let mut grid = new_grid();
    let nothing = programs.input("nothing", "aspif", NOTHING);
    let mut ratios = Vec::new();
    for kind in kinds {
        let asked = Asked::new(kind, programs);
        let count = asked.same_lists();
        let proved = asked.proved(rounds.calls);
        let [gringo, clasp, clingo, start, report] =
            asked.processes(programs.report(), &nothing, rounds.clingo);
        let faster = clingo.min(gringo + clasp);
        let solving = clasp - start;
        grid.row(vec![
            kind.name.clone(),
            with_commas(count as u64),
            micros(proved),
            millis(gringo),
            millis(clasp),
            millis(clingo),
            ratio(faster, proved),
            millis(solving),
            ratio(solving, proved),
            millis(report),
            ratio(faster, report),
        ]);
        ratios.push((kind.name.clone(), faster / proved));
    }
    targets.push(judged(&ratios));
    Some(grid)
}

fn new_grid() -> Grid {
    let mut grid = Grid::new(
        "One target's opening list, against clingo",
        &[
            "sheet",
            "sets",
            "proved, µs",
            "gringo, ms",
            "clasp, ms",
            "clingo, ms",
            "clingo / proved",
            "clasp's solving, ms",
            "solving / proved",
            "report, ms",
            "clingo / report",
        ],
    );
    grid.note(
        "The target with the longest lists. Gringo grounds `tests/bench/src/opening.lp` with the sheet's \
         facts, clasp enumerates the minimal sets of the ground program, and the program clingo does \
         both; none prints the sets, which were compared with the proved call's list. Clingo / proved \
         takes the faster of the two ways. Proved: `both_bases` on the setup without loss values, so \
         that there is no lockout list. Gringo and clasp have to start as programs, which is most of \
         their time where lists are short: clasp's solving is its time less that for an empty ground \
         program. The program `report`, which has to start as well, makes the lists of all vertices.",
    );
    grid
}

fn judged(ratios: &[(String, f64)]) -> Target {
    let (name, least) = smallest(ratios);
    let seen = format!("at least {least:.2} ({name})");
    Target::measured(WHAT, BOUND, seen, least >= 10.0).because(
        "The proved call looks at all subsets, and the worst sheet is the one found where their tables \
         settle last; its list is short, and clasp looks at few subsets.",
    )
}
