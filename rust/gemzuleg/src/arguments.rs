//! The arguments: a command, its words, and its options, which may stand behind them.

use crate::near::did_you_mean;
use crate::refusals::printable;
use crate::stop::{Answer, Stop};
use std::ffi::OsString;

/// What the help says, and the manual page and the completion have too.
pub const HELP: &str = include_str!("help.txt");

/// A command: its name, the fewest and most words behind it, what they are, which of them are files,
/// and its options, those that take a word last.
struct Shape {
    name: &'static str,
    fewest: usize,
    most: usize,
    words: &'static str,
    files: usize,
    options: &'static [&'static str],
    with_word: &'static [&'static str],
}

const fn shape(name: &'static str, fewest: usize, most: usize, words: &'static str) -> Shape {
    Shape { name, fewest, most, words, files: 1, options: &[], with_word: &[] }
}

const ANY: usize = usize::MAX;

const SHAPES: [Shape; 18] = [
    Shape { files: 0, ..shape("example", 0, 1, "[sheet|handins|kinds]") },
    Shape { files: ANY, ..shape("check", 1, ANY, "SHEET..") },
    shape("tidy", 1, 1, "FILE"),
    Shape {
        options: &["--answers"],
        with_word: &["--reach", "--kinds"],
        ..shape("paper", 1, ANY, "SHEET [ACCOUNT..]")
    },
    shape("report", 1, 1, "SHEET"),
    shape("list", 1, 3, "SHEET [ACCOUNT [WAY]]"),
    shape("routes", 1, 2, "SHEET [ACCOUNT]"),
    shape("harden", 1, 2, "SHEET [ACCOUNT]"),
    Shape { files: 2, ..shape("kinds", 2, 3, "SHEET KINDS [ACCOUNT]") },
    shape("bags", 1, 2, "SHEET [ACCOUNT]"),
    Shape {
        files: 2,
        options: &["--each", "--why", "--missing"],
        ..shape("mark", 1, 2, "SHEET [HANDINS]")
    },
    Shape {
        files: ANY,
        options: &["--summary"],
        with_word: &["--papers"],
        ..shape("class", 1, ANY, "SHEET..")
    },
    shape("why", 4, ANY, "SHEET ACCOUNT WAY SET.."),
    shape("reach", 2, 2, "SHEET SET"),
    shape("lose", 2, 2, "SHEET SET"),
    Shape { files: 2, ..shape("pool", 2, 2, "SHEET SHEET") },
    Shape { with_word: &["--reach", "--lose"], ..shape("graph", 1, 1, "SHEET") },
    Shape { files: 0, ..shape("explain", 0, ANY, "[NUMBER..]") },
];

/// What was asked for.
pub struct Asked {
    /// The command's name.
    pub command: &'static str,
    /// Its words.
    pub words: Vec<String>,
    options: Vec<String>,
    given: Vec<(String, String)>,
}

/// What the arguments ask for.
pub enum Request {
    /// Nothing: the help, as a mistake.
    Nothing,
    /// `--help`.
    Help,
    /// `--version`.
    Version,
    /// A command.
    Command(Asked),
}

impl Asked {
    /// Was this option given?
    pub fn has(&self, option: &str) -> bool {
        self.options.iter().any(|given| given == option)
    }

    /// The word that was given with an option.
    pub fn given(&self, option: &str) -> Option<&str> {
        self.given.iter().find(|(name, _)| name == option).map(|(_, word)| word.as_str())
    }
}

fn wrong<T>(what: String) -> Answer<T> {
    Err(Stop::Wrong(what))
}

fn texts(arguments: impl Iterator<Item = OsString>) -> Answer<Vec<String>> {
    let text = |argument: OsString| match argument.into_string() {
        Ok(text) => Ok(text),
        Err(other) => wrong(format!("'{}' is no text", printable(other.as_encoded_bytes()))),
    };
    arguments.map(text).collect()
}

/// What the arguments behind the program's name ask for.
pub fn parse(arguments: impl Iterator<Item = OsString>) -> Answer<Request> {
    let all = texts(arguments)?;
    let options = all.iter().take_while(|word| *word != "--");
    for option in options {
        match option.as_str() {
            "--help" => return Ok(Request::Help),
            "--version" => return Ok(Request::Version),
            _ => {}
        }
    }
    let mut rest = all.into_iter();
    let Some(name) = rest.next() else { return Ok(Request::Nothing) };
    let Some(shape) = SHAPES.iter().find(|shape| shape.name == name) else {
        let names: Vec<String> = SHAPES.iter().map(|shape| shape.name.to_string()).collect();
        let shown = printable(name.as_bytes());
        return wrong(format!("'{shown}' is no command{}", did_you_mean(&names, &name)));
    };
    let asked = sort(shape, rest)?;
    check(shape, &asked)?;
    Ok(Request::Command(asked))
}

/// What stands behind an option that takes a word.
fn wanted(option: &str) -> &'static str {
    match option {
        "--kinds" => "FILE",
        "--papers" => "DIR",
        _ => "SET",
    }
}

/// Words and options apart.
fn sort(shape: &Shape, mut rest: impl Iterator<Item = String>) -> Answer<Asked> {
    let (command, words) = (shape.name, Vec::new());
    let mut asked = Asked { command, words, options: Vec::new(), given: Vec::new() };
    while let Some(word) = rest.next() {
        if word == "--" {
            asked.words.extend(rest);
            break;
        }
        if shape.with_word.contains(&word.as_str()) {
            match rest.next() {
                Some(next) => asked.given.push((word, next)),
                None => return wrong(format!("{word} wants a {}", wanted(&word))),
            }
        } else if shape.options.contains(&word.as_str()) {
            asked.options.push(word);
        } else if word.starts_with('-') && word != "-" {
            let shown = printable(word.as_bytes());
            return wrong(format!("'{}' has no option '{shown}'", shape.name));
        } else {
            asked.words.push(word);
        }
    }
    Ok(asked)
}

/// As many words as the command takes, standard input for one file, and each word once.
fn check(shape: &Shape, asked: &Asked) -> Answer<()> {
    let count = asked.words.len();
    if count < shape.fewest || count > shape.most {
        return wrong(format!("'{}' wants {}", shape.name, shape.words));
    }
    let files = asked.words.iter().take(shape.files);
    if files.filter(|word| *word == "-").count() > 1 {
        return wrong("standard input can be one file only".to_string());
    }
    once(asked)
}

/// Of what takes a word one is enough; and nothing may tell an answer among the exercises.
fn once(asked: &Asked) -> Answer<()> {
    let times = |option: &str| asked.given.iter().filter(|(name, _)| name == option).count();
    if times("--reach") + times("--lose") > 1 {
        return wrong("--reach or --lose, and one of them".to_string());
    }
    for option in ["--kinds", "--papers"] {
        if times(option) > 1 {
            return wrong(format!("{option} once, please"));
        }
    }
    match asked.given.first() {
        Some((option, _)) if asked.command == "paper" && !asked.has("--answers") => {
            wrong(format!("{option} tells an answer, and goes with --answers"))
        }
        _ => Ok(()),
    }
}
