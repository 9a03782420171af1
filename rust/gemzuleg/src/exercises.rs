//! `paper`: the exercises. No answer stands in them, hidden or not: every list has the same room.

use crate::graph::{graph, Filled};
use crate::lab::{or_never, Lab, Way};
use crate::page::{header, page, set, Grid, Paper};
use crate::picture::picture;
use crate::stop::Answer;

/// The ruled lines for a list, whatever the answer is.
const LINES: usize = 5;
const WHO: &str =
    "<div class=\"who\"><span>Name</span><span>Student number</span><span>Date</span></div>";
const CAPTION: &str = "Boxes are accounts. Arrows of one number into a thing are needed together; another number is another way; dashed is recovery.";
const READING: &str = "<p>A stranger may begin with any things that have a number under <i>get</i>: the number says how hard they are to get. Things with a number under <i>lose</i> can be lost. Things that stand in one row are needed together; each row is a way by itself.</p>\n";
const SMALLEST: &str = "Some smallest sets have more things than others.";
const THREE: &str = "<p class=\"task\">The <i>score</i> of an account is the least sum of <i>get</i> over its sets of exercise one; the <i>risk</i> is the least sum of <i>lose</i> over those of exercise two. Now cover every way that is marked recovery. Is the score higher without it? Then recovery weakens the account. Is the risk lower without it? Then recovery helps the lab. Which way is it?</p>\n";
const MARKS: &str = "<footer>Hand in a line for each list, as it stands at its right; a later line takes the place of an earlier one. A set is written as names joined by <code>+</code>, in any order; <code>-</code> is the empty set. Marks: <b>right</b>, a smallest set; <b>loose</b>, it works, and less of it does too; <b>shut</b>, it does not work, or has a thing that may not be used; <b>repeated</b>; <b>missing</b>, sets that were not found.</footer>\n";

/// The exercises of a sheet, as a page.
pub fn exercises(paper: &Paper) -> Answer<String> {
    let mut body = header("Who can get in?", &paper.of(), WHO);
    body += "<h2>Your drawing</h2>\n";
    body += &figure(paper.lab, None)?;
    body += READING;
    body += &both(paper.lab)?;
    let gets = "with which a stranger gets into the account. <i>Smallest</i>: without any one of them the rest does not open it.";
    body += &exercise(paper, "Exercise one", gets, Way::Open)?;
    let shuts = "whose loss shuts the lab out of the account. <i>Smallest</i>: without any one of them the rest does not do it.";
    body += &exercise(paper, "Exercise two", shuts, Way::Lock)?;
    body += &blank(paper)?;
    Ok(page(&format!("Who can get in?: {}", paper.name), &(body + MARKS)))
}

/// The picture, where there is one.
pub fn figure(lab: &Lab, filled: Option<Filled>) -> Answer<String> {
    let shaded = match &filled {
        Some(Filled { set, .. }) => {
            format!(" Dark: {}; light: what that opens.", lab.names(*set)?)
        }
        None => String::new(),
    };
    let caption = format!("<figcaption>{CAPTION}{shaded}</figcaption>");
    let svg = picture(&graph(lab, filled)?);
    Ok(svg.map_or(String::new(), |svg| format!("<figure>{svg}{caption}</figure>\n")))
}

/// A dash for no number.
fn or_dash(value: Option<u64>) -> String {
    or_never(value).replace('-', "–")
}

/// Things and ways, beside each other where both are narrow.
fn both(lab: &Lab) -> Answer<String> {
    let (things, ways) = (things(lab)?, ways(lab)?);
    let short =
        |item: usize| [Way::Open, Way::Lock].iter().all(|&way| lab.value(item, way) <= Some(9999));
    let narrow = lab.all_names()?.iter().all(|name| name.len() <= 12);
    if narrow && (0..lab.count()).all(short) {
        return Ok(format!("<div class=\"two\"><div>\n{things}</div><div>\n{ways}</div></div>\n"));
    }
    Ok(things + &ways)
}

fn things(lab: &Lab) -> Answer<String> {
    let mut grid = Grid::new("things", &["thing", "kind", "#get", "#lose", "#rank"]);
    for item in 0..lab.count() {
        let kind = if lab.is_account(item) { "account" } else { "credential" };
        let [get, lose] = [Way::Open, Way::Lock].map(|way| or_dash(lab.value(item, way)));
        let rank = lab.rank(item).to_string();
        grid.row(&[&set(&lab.name(item)?), kind, &get, &lose, &rank]);
    }
    Ok(grid.html("There is nothing on the sheet."))
}

/// Each colour of each thing; with a mark where any of its arrows is for recovery.
fn ways(lab: &Lab) -> Answer<String> {
    let mut grid = Grid::new("ways", &["thing", "is opened by", "#colour", ""]);
    for item in 0..lab.count() {
        for colour in lab.colours(item) {
            let (row, recovery) = (lab.row(item, colour), lab.recovery(item, colour));
            let mark = match recovery {
                0 => String::new(),
                all if all == row => "<span class=\"rec\">recovery</span>".to_string(),
                some => {
                    format!("<span class=\"rec\">recovery</span> by {}", set(&lab.names(some)?))
                }
            };
            let names = [set(&lab.name(item)?), set(&lab.names(row)?)];
            grid.row(&[&names[0], &names[1], &colour.to_string(), &mark]);
        }
    }
    Ok(grid.html("No arrow is drawn."))
}

/// An exercise: for each account the line to hand in, and room to write.
fn exercise(paper: &Paper, title: &str, which: &str, way: Way) -> Answer<String> {
    let task = format!("Write down every smallest set of things {which} {SMALLEST}");
    let mut html = format!("<h2>{title}</h2>\n<p class=\"task\">{task}</p>\n");
    let how = match way {
        Way::Open => "opened by",
        Way::Lock => "shut by the loss of",
    };
    for &target in &paper.targets {
        let name = paper.lab.name(target)?;
        let line = format!("<code>student {name} {} set set ..</code>", way.name());
        html += &format!("<div class=\"exercise\"><h3>{line}{name}, {how}</h3>");
        html += &"<div class=\"rule\"></div>".repeat(LINES);
        html += "</div>\n";
    }
    Ok(html)
}

/// Exercise three, with an empty table.
fn blank(paper: &Paper) -> Answer<String> {
    let columns = ["account", "#score", "#risk", "weakened by recovery", "helped by recovery"];
    let mut grid = Grid::new("blank", &columns);
    for &target in &paper.targets {
        grid.row(&[&set(&paper.lab.name(target)?), "", "", "", ""]);
    }
    let grid = grid.html("The sheet has no account.");
    Ok(format!("<h2>Exercise three</h2>\n{THREE}<div class=\"blank\">\n{grid}</div>\n"))
}
