//! The targets of the benchmark, with what was seen.

use crate::grid::{wrapped, Grid};

/// A target and what became of it.
pub struct Target {
    what: &'static str,
    bound: String,
    seen: String,
    met: Option<bool>,
    /// Why it may be missed.
    reason: &'static str,
}

impl Target {
    /// A target that was measured.
    pub fn measured(what: &'static str, bound: &'static str, seen: String, met: bool) -> Target {
        Target { what, bound: bound.to_string(), seen, met: Some(met), reason: "" }
    }

    /// One that was not, and why.
    pub fn not_measured(what: &'static str, bound: &'static str, why: &str) -> Target {
        Target { what, bound: bound.to_string(), seen: why.to_string(), met: None, reason: "" }
    }

    /// Adds the reason that is told where the target is missed.
    pub fn because(self, reason: &'static str) -> Target {
        Target { reason, ..self }
    }

    fn verdict(&self) -> &'static str {
        match self.met {
            Some(true) => "met",
            Some(false) => "missed",
            None => "not measured",
        }
    }
}

/// All targets as a table.
pub fn grid(targets: &[Target]) -> Grid {
    let mut grid = Grid::of_words("Targets", &["what", "target", "seen", "verdict"]);
    for target in targets {
        let verdict = target.verdict().to_string();
        grid.row(vec![target.what.into(), target.bound.clone(), target.seen.clone(), verdict]);
    }
    grid
}

/// Those that tell how the proved code stands against others.
pub fn others(targets: &[Target]) -> Grid {
    let chosen: Vec<&Target> =
        targets.iter().filter(|target| OTHERS.contains(&target.what)).collect();
    let mut grid = Grid::of_words("Against others", &["what", "target", "seen"]);
    for target in chosen {
        grid.row(vec![target.what.into(), target.bound.clone(), target.seen.clone()]);
    }
    grid
}

/// What these targets are about.
const OTHERS: [&str; 7] = [
    "one target's opening list, clingo / proved",
    "the same, brute force / proved program, rows below 1 MB",
    "both lists of one target, proved / twin",
    "all tables and scores of a sheet, `report` / program with the twin",
    "`report` / rows by bytes (the faster way), most rows",
    "cut sets from the opening list by Berge's method / proved",
    "marking a million sets / sorting them",
];

/// The reasons of the targets that are missed.
pub fn reasons(targets: &[Target]) -> String {
    let missed = targets.iter().filter(|target| target.met == Some(false));
    missed.map(|target| wrapped(&format!("- Missed: {}. {}", target.what, target.reason))).collect()
}

/// At most `bound` times, on every kind.
pub fn at_most(what: &'static str, bound: f64, ratios: &[(String, f64)]) -> Target {
    let (worst, most) = largest(ratios);
    let seen = format!("at most {most:.2} ({worst})");
    let told = format!("at most {bound:.1} times");
    Target { what, bound: told, seen, met: Some(most <= bound), reason: "" }
}

/// At most 1.3 times the twin, and 2 on the worst sheet.
pub fn against_twin(what: &'static str, ratios: &[(String, f64)]) -> Target {
    let (worst, most) = largest(ratios);
    let others = ratios.iter().filter(|(name, _)| name != worst).map(|(_, times)| *times);
    let second = others.fold(0.0, f64::max);
    let seen = format!("at most {most:.2} ({worst}), else {second:.2}");
    let met = most <= 2.0 && second <= 1.3;
    Target::measured(what, "at most 1.3 times; 2 on the worst sheet", seen, met)
}

/// The largest of some numbers with its name.
pub fn largest(numbers: &[(String, f64)]) -> (&str, f64) {
    let found = numbers.iter().max_by(|one, other| one.1.total_cmp(&other.1));
    found.map(|(name, number)| (name.as_str(), *number)).expect("some kind was measured")
}

/// The smallest.
pub fn smallest(numbers: &[(String, f64)]) -> (&str, f64) {
    let found = numbers.iter().min_by(|one, other| one.1.total_cmp(&other.1));
    found.map(|(name, number)| (name.as_str(), *number)).expect("some kind was measured")
}
