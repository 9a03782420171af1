//! `class --papers`: both papers of every sheet of a day, and a page with links to them. This writes files, into the
//! folder that is named and nowhere else; no other command does.

use crate::answers::answers;
use crate::exercises::exercises;
use crate::files;
use crate::marking::{self, MarkedLab};
use crate::page::{escaped, header, lab_name, page, Grid, Paper};
use crate::stop::{Answer, Stop};
use std::path::{Path, PathBuf};

const OVERVIEW: &str = "overview.html";

/// The files of a sheet's papers.
fn names(sheet: &str) -> [String; 2] {
    let name = files::as_field(lab_name(sheet));
    [format!("{name}.html"), format!("{name}-answers.html")]
}

/// No two papers may go to one file.
fn check(sheets: &[String]) -> Answer<()> {
    let mut all = vec![OVERVIEW.to_string()];
    for name in sheets.iter().flat_map(|sheet| names(sheet)) {
        if all.contains(&name) {
            return Err(Stop::Wrong(format!("two papers of this day would be called '{name}'")));
        }
        all.push(name);
    }
    Ok(())
}

fn write(folder: &Path, name: &str, text: &str) -> Answer<()> {
    let path: PathBuf = folder.join(name);
    let failed = |error| Stop::Failed(path.display().to_string(), files::words(&error));
    std::fs::write(&path, text).map_err(failed)
}

/// Both papers of a lab, and its row of the overview. A kinds file beside the sheet is used.
fn papers(folder: &Path, marked: &MarkedLab) -> Answer<Vec<String>> {
    let paper = Paper::new(marked.lab, marked.sheet, &[])?;
    let kinds = format!("{}.kinds", marking::beside(marked.sheet).1);
    let kinds = Path::new(&kinds).is_file().then_some(kinds.as_str());
    let [one, other] = names(marked.sheet);
    let pages = [exercises(&paper)?, answers(&paper, None, kinds)?];
    write(folder, &one, &pages[0])?;
    write(folder, &other, &pages[1])?;
    let links = [(&one, "exercises"), (&other, "answers")];
    let [one, other] = links.map(|(file, word)| format!("<a href=\"./{file}\">{word}</a>"));
    let counts = [marked.lab.count(), paper.targets.len()].into_iter().chain(marked.figures);
    let mut row = vec![escaped(&paper.name), one, other];
    row.extend(counts.map(|count| count.to_string()));
    Ok(row)
}

fn overview(rows: &[Vec<String>], all: usize) -> String {
    let columns = ["lab", "", "", "#things", "#accounts", "#students", "#attempts", "#full"];
    let mut grid = Grid::new("labs", &columns);
    for row in rows {
        grid.row(&row.iter().map(String::as_str).collect::<Vec<_>>());
    }
    let mut body = header("Who can get in? The day", &format!("{} labs", rows.len()), "");
    body += &grid.html("No sheet could be read.");
    if rows.len() < all {
        body += "<p>Of the other labs the sheet could not be read, or its papers could not be made: the command has said why.</p>\n";
    }
    body += "<footer>Students, attempts and full marks are as <code>gemzuleg class --summary</code> prints them. Hold the answers back until the hand-ins are in.</footer>\n";
    page("Who can get in? The day", &body)
}

/// The marks of many labs, and their papers in a folder.
pub fn class(folder: &str, sheets: &[String], summary: bool) -> Answer<(String, u8)> {
    check(sheets)?;
    let path = Path::new(folder);
    let failed = |error| Stop::Failed(folder.to_string(), files::words(&error));
    std::fs::create_dir_all(path).map_err(failed)?;
    let mut rows = Vec::new();
    let marked = marking::class(sheets, summary, &mut |marked| {
        rows.push(papers(path, marked)?);
        Ok(())
    })?;
    write(path, OVERVIEW, &overview(&rows, sheets.len()))?;
    Ok(marked)
}
