//! `check` and `report`: of whole sheets.

use crate::files;
use crate::lab::{Lab, Way, COLOURS};
use crate::screen::{self, Rows};
use crate::stop::{Answer, Stop, ANSWERED};
use std::io::{self, Write};
use std::path::PathBuf;
use std::process::{Command, Stdio};

/// `check`: a row for each sheet; a refusal is told, and the others go on.
pub fn check(files: &[String]) -> Answer<u8> {
    let mut rows = Rows::new("sheet items starting losable accounts arrows recovery");
    let mut highest = ANSWERED;
    for file in files {
        match Lab::read(file) {
            Ok(lab) => rows.row(&format!("{} {}", files::as_field(file), counts(&lab))),
            Err(stop) => {
                rows.before_refusal()?;
                screen::tell(&stop.text());
                highest = highest.max(stop.status());
            }
        }
    }
    rows.end()?;
    Ok(highest)
}

fn counts(lab: &Lab) -> String {
    let places = (0..lab.count()).flat_map(|item| (0..COLOURS).map(move |colour| (item, colour)));
    let (mut arrows, mut recovery) = (0, 0);
    for (item, colour) in places {
        arrows += lab.row(item, colour).count_ones();
        recovery += lab.recovery(item, colour).count_ones();
    }
    let [starting, losable] = [Way::Open, Way::Lock].map(|way| lab.chosen(way).count_ones());
    let accounts = lab.accounts().len();
    format!("{} {starting} {losable} {accounts} {arrows} {recovery}", lab.count())
}

/// The command's own file. Where /proc is not there, the name by which it was called tells it: a path, or a
/// file on the PATH.
fn own_file() -> io::Result<PathBuf> {
    std::env::current_exe().or_else(|error| {
        let called = PathBuf::from(std::env::args_os().next().unwrap_or_default());
        let path = std::env::var_os("PATH").unwrap_or_default();
        let mut found = std::env::split_paths(&path).map(|folder| folder.join(&called));
        if called.components().count() > 1 {
            return Ok(called);
        }
        found.find(|file| file.is_file()).ok_or(error)
    })
}

/// Where the proved programs may stand: beside the command, or in ../libexec/gemzuleg.
fn program(name: &str) -> io::Result<PathBuf> {
    let own = own_file()?;
    let folder = own.parent().ok_or(io::ErrorKind::NotFound)?;
    let beside = folder.join(name);
    Ok(if beside.is_file() { beside } else { folder.join("../libexec/gemzuleg").join(name) })
}

/// Runs a program on these bytes; what it prints, and whether it ended well.
fn run(program: &PathBuf, input: &[u8]) -> io::Result<(Vec<u8>, bool)> {
    let mut child = Command::new(program).stdin(Stdio::piped()).stdout(Stdio::piped()).spawn()?;
    if let Some(mut to) = child.stdin.take() {
        // A sheet fits into a pipe whole, so that this waits for nobody; who does not read it says so.
        let _ = to.write_all(input);
    }
    let done = child.wait_with_output()?;
    Ok((done.stdout, done.status.success()))
}

/// `report`: the proved program's.
pub fn report(file: &str) -> Answer<Vec<u8>> {
    let sheet = files::read_sheet(file)?;
    Lab::of(file, sheet.clone())?;
    let failed =
        |what: &str, error: &io::Error| Stop::Failed(what.to_string(), files::words(error));
    let program = program("report").map_err(|error| failed("report", &error))?;
    let shown = program.display().to_string();
    match run(&program, &sheet).map_err(|error| failed(&shown, &error))? {
        (text, true) if text.starts_with(b"target ") => Ok(text),
        _ => Err(Stop::Failed(shown, "it gave no report".to_string())),
    }
}
