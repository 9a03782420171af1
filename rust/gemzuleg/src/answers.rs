//! `paper --answers`: scores and findings, recovery routes, pairs out of rank, who gets in, and for each account both
//! lists with the steps of each set, and what to harden. A list that is too long is cut, and the page says so.

use crate::exercises::figure;
use crate::graph::Filled;
use crate::kinds::Kinds;
use crate::lab::{items, yes_no, Lab, Way};
use crate::lists;
use crate::page::{escaped, header, page, set, Grid, Paper};
use crate::steps::{self, Step};
use crate::stop::{answered, hold, Answer};

/// The sets of a list that are shown with their steps.
const WITH_STEPS: usize = 24;
/// The rows of a table.
const ROWS: usize = 72;
/// The lines of all lists of a page together: rows, and steps.
const LINES: usize = 3000;
const FOOTER: &str = "<footer>The sets, sums, scores and findings are proved; the ways are followed from arrow to arrow and can be checked by eye.</footer>\n";

/// The answers of a sheet, as a page.
pub fn answers(paper: &Paper, filled: Option<Filled>, kinds: Option<&str>) -> Answer<String> {
    let mut body = header("Who can get in? Answers", &paper.of(), "");
    body += &figure(paper.lab, filled)?;
    body += &scores(paper)?;
    body += &routes(paper)?;
    body += &pairs(paper)?;
    if let Some(file) = kinds {
        body += &who_gets_in(paper, &Kinds::read(paper.lab, file)?)?;
    }
    let room = room(paper)?;
    for &target in &paper.targets {
        body += &account(paper, target, room)?;
    }
    Ok(page(&format!("Who can get in? Answers: {}", paper.name), &(body + FOOTER)))
}

/// The sentence below a table that was cut.
fn cut(shown: usize, all: usize, what: &str, command: &str) -> String {
    if shown == all {
        return String::new();
    }
    let command = format!("<code>{}</code>", escaped(command));
    format!("<p class=\"cut\">Here are the first {shown} of {all} {what}; {command} prints them all.</p>\n")
}

fn finding(result: portal::FindingResult) -> Answer<bool> {
    Ok(answered(result.answered(), "findings")?.yes == 1)
}

/// "never" where there is no sum.
fn sum_or_never(sum: Option<u64>) -> String {
    sum.map_or("never".to_string(), |sum| sum.to_string())
}

fn scores(paper: &Paper) -> Answer<String> {
    let columns = ["account", "#score", "#risk", "weakened by recovery", "helped by recovery"];
    let (lab, mut grid) = (paper.lab, Grid::new("scores", &columns));
    for &target in &paper.targets {
        let weakened = finding(portal::backdoor(&lab.setup, target as u64))?;
        let idle = finding(portal::idle(&lab.setup, target as u64))?;
        let score = sum_or_never(lab.least(target, Way::Open)?);
        let risk = sum_or_never(lab.least(target, Way::Lock)?);
        let name = set(&lab.name(target)?);
        grid.row(&[&name, &score, &risk, yes_no(weakened), yes_no(!idle)]);
    }
    let note = "<p>The score is what the cheapest way in costs a stranger; the risk is the least loss that shuts the lab out.</p>\n";
    let table = grid.html("The sheet has no account.");
    Ok(format!("<h2>Scores and findings</h2>\n{note}{table}"))
}

/// The recovery arrows on a way: `mail to order`.
fn recovery_used(lab: &Lab, steps: &[Step]) -> Answer<String> {
    let mut used = Vec::new();
    for step in steps {
        let sources =
            step.by.iter().fold(0, |set, &(colour, _)| set | lab.recovery(step.item, colour));
        for from in items(sources) {
            used.push(format!("{} to {}", lab.name(from)?, lab.name(step.item)?));
        }
    }
    hold(!used.is_empty(), "the routes")?;
    Ok(used.join(", "))
}

fn routes(paper: &Paper) -> Answer<String> {
    let columns = ["account", "a stranger has", "#sum", "#score without recovery", "recovery used"];
    let (lab, mut grid) = (paper.lab, Grid::new("routes", &columns));
    let without = lists::without_recovery(lab);
    let mut all = 0;
    for &target in &paper.targets {
        let found = lists::routes_of(lab, &without, target)?;
        let bound = sum_or_never(found.bound);
        let room = ROWS.saturating_sub(all);
        for &one in found.sets.iter().take(room) {
            let used = recovery_used(lab, &steps::steps(lab, target, Way::Open, one)?)?;
            let (name, sum) = (set(&lab.name(target)?), lab.sum(one, Way::Open).to_string());
            grid.row(&[&name, &set(&lab.names(one)?), &sum, &bound, &used]);
        }
        all += found.sets.len();
    }
    let table = grid.html("None.");
    let rest = cut(all.min(ROWS), all, "routes", &format!("gemzuleg routes {}", paper.file));
    Ok(format!("<h3>Recovery routes that weaken an account</h3>\n{table}{rest}"))
}

/// The accounts that are ranked above others that are no weaker.
fn pairs(paper: &Paper) -> Answer<String> {
    let (lab, mut grid) = (paper.lab, Grid::new("pairs", &["account", "is ranked above"]));
    let mut all = 0;
    for &above in &paper.targets {
        for &below in &paper.targets {
            if finding(portal::out_of_rank(&lab.setup, above as u64, below as u64))? {
                all += 1;
                if all <= ROWS {
                    grid.row(&[&set(&lab.name(above)?), &set(&lab.name(below)?)]);
                }
            }
        }
    }
    let table = grid.html("None.");
    let rest = cut(all.min(ROWS), all, "pairs", &format!("gemzuleg report {}", paper.file));
    Ok(format!("<h3>More important, and no stronger</h3>\n{table}{rest}"))
}

/// A row for each account, a column for each kind of intruder.
fn who_gets_in(paper: &Paper, kinds: &Kinds) -> Answer<String> {
    let (lab, mut columns, mut rows) = (paper.lab, vec!["account".to_string()], Vec::new());
    for &target in &paper.targets {
        let six = kinds.before(lab, target)?;
        columns.truncate(1);
        columns.extend(six.iter().map(|kind| kind.words.join(", ")));
        let mut row = vec![set(&lab.name(target)?)];
        row.extend(six.iter().map(|kind| match (kind.enters, kind.least) {
            (true, true) => "<b>yes</b>, least".to_string(),
            (enters, _) => yes_no(enters).to_string(),
        }));
        rows.push(row);
    }
    let columns: Vec<&str> = columns.iter().map(String::as_str).collect();
    let mut grid = Grid::new("kinds", &columns);
    for row in rows {
        grid.row(&row.iter().map(String::as_str).collect::<Vec<_>>());
    }
    let note = "<p><i>Least</i>: no lesser kind of intruder gets in.</p>\n";
    let table = grid.html("The sheet has no account.");
    Ok(format!("<h3>Who gets in</h3>\n{table}{note}"))
}

/// Both lists of an account, and what to harden.
fn account(paper: &Paper, target: usize, room: usize) -> Answer<String> {
    let name = paper.lab.name(target)?;
    let mut html = format!("<h2>{name}</h2>\n");
    html += "<h3>Exercise one: a stranger gets in with</h3>\n";
    html += &list(paper, target, Way::Open, room)?;
    html += "<h3>Exercise two: the lab is shut out by the loss of</h3>\n";
    html += &list(paper, target, Way::Lock, room)?;
    html += "<h3>To harden, so that no way in is left</h3>\n";
    Ok(html + &harden(paper, target, room)?)
}

/// The lines that a list may have: as many as it has, where all of them find room on a page; else each has its part.
fn room(paper: &Paper) -> Answer<usize> {
    let mut lines = 0;
    for &target in &paper.targets {
        lines += lists::cuts(paper.lab, target)?.len().min(ROWS);
        for way in [Way::Open, Way::Lock] {
            let sets = paper.lab.list(target, way)?;
            lines += sets.len().min(ROWS);
            for &one in sets.iter().take(WITH_STEPS) {
                lines += steps::lines(paper.lab, target, way, one)?.len();
            }
        }
    }
    Ok(if lines <= LINES { usize::MAX } else { LINES / (3 * paper.targets.len()) })
}

/// The first sets of a list with their steps, and some more without, as far as there is room.
fn list(paper: &Paper, target: usize, way: Way, room: usize) -> Answer<String> {
    let (lab, name) = (paper.lab, paper.lab.name(target)?);
    let (columns, none) = match way {
        Way::Open => (["a stranger has", "#sum", "the way in"], "No stranger gets in."),
        Way::Lock => {
            (["lost together", "#sum", "how it comes to that"], "No loss shuts the lab out.")
        }
    };
    let mut grid = Grid::new(&format!("{} {name}", way.name()), &columns);
    let sets = lists::summed(lab, target, way)?;
    let (mut left, mut shown, mut told) = (room, 0, 0);
    for &one in sets.iter().take(ROWS.min(left)) {
        let lines = steps::lines(lab, target, way, one)?;
        let steps = if told == shown && told < WITH_STEPS && lines.len() < left {
            told += 1;
            left -= lines.len();
            steps_cell(&lines)
        } else {
            String::new()
        };
        if left == 0 {
            break;
        }
        left -= 1;
        shown += 1;
        grid.row(&[&set(&lab.names(one)?), &lab.sum(one, way).to_string(), &steps]);
    }
    let words = format!("{} {name} {}", paper.file, way.name());
    let rest = cut(shown, sets.len(), "sets", &format!("gemzuleg list {words}"));
    Ok(grid.html(none) + &rest + &untold(told, shown, &words))
}

fn steps_cell(lines: &[String]) -> String {
    let line = |line: &String| format!("<div>{}</div>", line.replace('+', "+<wbr/>"));
    let lines: Vec<String> = lines.iter().map(line).collect();
    format!("<div class=\"steps\">{}</div>", lines.concat())
}

/// The sentence where not every set that is shown has its steps.
fn untold(told: usize, shown: usize, words: &str) -> String {
    if told == shown {
        return String::new();
    }
    let command = format!("<code>gemzuleg why {} SET</code>", escaped(words));
    let of = if told == 0 { "no set here".to_string() } else { format!("the first {told}") };
    format!("<p class=\"cut\">Steps are told of {of}; {command} tells those of any set.</p>\n")
}

fn harden(paper: &Paper, target: usize, room: usize) -> Answer<String> {
    let (lab, name) = (paper.lab, paper.lab.name(target)?);
    let mut grid = Grid::new(&format!("harden {name}"), &["all of these"]);
    let sets = lists::cuts(lab, target)?;
    let shown = sets.len().min(ROWS).min(room);
    for &one in &sets[..shown] {
        grid.row(&[&set(&lab.names(one)?)]);
    }
    let command = format!("gemzuleg harden {} {name}", paper.file);
    let none = "There is no such set: the account stands open.";
    Ok(grid.html(none) + &cut(shown, sets.len(), "sets", &command))
}
