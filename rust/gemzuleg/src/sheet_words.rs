//! The words for a refused sheet. Number and line are the proved reader's; the words are found by
//! looking at the text, and decide nothing.

use crate::handin_words::of_name;
use crate::mending;
use crate::near::did_you_mean;
use crate::refusals::{printable, Refusal};
use crate::words;
use std::ops::Range;

/// The first line of a sheet.
pub const ITEMS: &str = "name kind start loss rank";
/// The line above the arrows.
pub const ARROWS: &str = "from to colour rec";
const TIDY: &str = "'gemzuleg tidy' prints a mended copy";
/// Of a text of UTF-16.
pub const WIDE: &str =
    "the text is UTF-16, two bytes for a letter; 'gemzuleg tidy' prints a mended copy";
/// How the files of spreadsheets and word processors begin.
const PACKED: &[u8] = b"PK\x03\x04";
const MOST_ITEMS: usize = 64;
const MOST_CHOSEN: usize = 14;
const VALUE: &str = "0 to 4000000000 without leading zeros, or - for none";

/// A sentence, and the part of the line that it is about; no part where the line is not shown.
struct Found {
    sentence: String,
    part: Option<Range<usize>>,
}

impl Found {
    /// About all of the line.
    fn line(sentence: impl Into<String>) -> Found {
        Found { sentence: sentence.into(), part: Some(0..0) }
    }

    /// About no line that can be shown.
    fn alone(sentence: impl Into<String>) -> Found {
        Found { sentence: sentence.into(), part: None }
    }

    /// About a part of the line.
    fn at(part: Range<usize>, sentence: impl Into<String>) -> Found {
        Found { sentence: sentence.into(), part: Some(part) }
    }
}

/// The refusal of a file's bytes as a sheet, with the reader's number and line.
pub fn refusal(file: &str, text: &[u8], number: u64, line: u64) -> Refusal {
    let (line, found) = match number {
        1 | 2 if text.starts_with(PACKED) => {
            let sentence = "this is a spreadsheet's or word processor's own file; save it as text";
            (0, Found::alone(sentence))
        }
        1 => (0, Found::alone(words::sentence(1))),
        2 => no_text(text),
        _ => (line as usize, of_line(text, number, line as usize)),
    };
    let place = if line == 0 { file.to_string() } else { format!("{file}:{line}") };
    let shown = found.part.and_then(|part| Some((nth_line(text, line)?.to_vec(), part)));
    Refusal { place, sentence: found.sentence, number, shown }
}

fn nth_line(text: &[u8], line: usize) -> Option<&[u8]> {
    let lines = text.strip_suffix(b"\n").unwrap_or(text);
    lines.split(|&byte| byte == b'\n').nth(line.checked_sub(1)?)
}

/// 2: what the text has that no sheet has, and its line.
fn no_text(text: &[u8]) -> (usize, Found) {
    if text.is_empty() {
        return (0, Found::alone("the file is empty"));
    }
    if mending::is_wide(text) {
        return (0, Found::alone(WIDE));
    }
    if text.starts_with(mending::MARK) {
        let sentence = format!("an invisible mark (a byte order mark) stands at the start; {TIDY}");
        return (1, Found::alone(sentence));
    }
    let odd = |byte: &u8| *byte != b'\n' && !(32..=126).contains(byte);
    let Some(at) = text.iter().position(odd) else {
        let line = text.split(|&byte| byte == b'\n').count();
        return (line, Found::line(format!("the last line has no line end; {TIDY}")));
    };
    let line = 1 + text[..at].iter().filter(|&&byte| byte == b'\n').count();
    let begins = text[..at].iter().rposition(|&byte| byte == b'\n').map_or(0, |end| end + 1);
    (line, odd_byte(&text[at..], at - begins))
}

/// The odd byte that the text begins with, and its place in the line.
fn odd_byte(text: &[u8], place: usize) -> Found {
    let ends_line = |rest: &[u8]| matches!(rest, [b'\r'] | [b'\r', b'\n', ..]);
    match text[0] {
        b'\r' if ends_line(text) => Found::alone(format!("the line ends the Windows way; {TIDY}")),
        b'\t' => Found::at(place..place + 1, format!("a tab stands where a space belongs; {TIDY}")),
        _ => {
            let more = text.iter().skip(1).take_while(|&&byte| byte & 0xc0 == 0x80).count();
            let sentence = "only plain letters, digits and signs may stand in a sheet";
            Found::at(place..place + 1 + more, sentence)
        }
    }
}

/// The lines of a sheet, and where among them the refused one stands.
struct Lines<'a> {
    /// The lines above the refused one.
    above: Vec<&'a str>,
    line: &'a str,
    /// The place of the first empty line above it.
    blank: Option<usize>,
}

impl<'a> Lines<'a> {
    fn items(&self) -> Vec<Vec<&'a str>> {
        let end = self.blank.unwrap_or(self.above.len());
        let rows = self.above[..end].iter().skip(1);
        rows.map(|row| row.split(' ').collect()).collect()
    }

    fn names(&self) -> Vec<String> {
        self.items().iter().map(|row| row[0].to_string()).collect()
    }
}

fn of_line(text: &[u8], number: u64, line: usize) -> Found {
    let text = String::from_utf8_lossy(text);
    let mut above: Vec<&str> = text.split('\n').take(line).collect();
    let last = above.pop().unwrap_or_default();
    let blank = above.iter().position(|row| row.is_empty());
    let lines = Lines { above, line: last, blank };
    match number {
        3 => header(&lines),
        4 => fields(&lines),
        5 => form(&lines),
        6 => name_twice(&lines),
        7 => bound(&lines),
        8 => unknown(&lines),
        9 => arrow_twice(&lines),
        _ => Found::alone(words::sentence(number)),
    }
}

/// 3, of a first line that is not the header.
pub fn no_header(line: &[u8], header: &str) -> String {
    match mending::separator(line) {
        Some(b',') => format!("commas stand where spaces belong; {TIDY}"),
        Some(_) => format!("semicolons stand where spaces belong; {TIDY}"),
        None => format!("the first line must be: {header}"),
    }
}

/// 3.
fn header(lines: &Lines) -> Found {
    if lines.above.is_empty() {
        Found::line(no_header(lines.line.as_bytes(), ITEMS))
    } else {
        Found::line(format!("below the empty line must come: {ARROWS}"))
    }
}

/// 4.
fn fields(lines: &Lines) -> Found {
    let (row, count, names) = match lines.blank {
        None if lines.line == ARROWS => {
            return Found::line(format!("an empty line must stand above '{ARROWS}'"))
        }
        None => ("an item", "five", ITEMS),
        Some(_) if lines.line.is_empty() => {
            return Found::alone(format!("no line may be empty below '{ARROWS}'"))
        }
        Some(_) => ("an arrow", "four", ARROWS),
    };
    if lines.line.trim().is_empty() {
        return Found::alone(format!("nothing but spaces stands in this line; {TIDY}"));
    }
    let here: Vec<&str> = lines.line.split(' ').collect();
    let rule = format!("the row of {row} has {count} fields, {names}");
    if here.contains(&"") {
        return Found::line(format!("{rule}, with one space between and none at the ends"));
    }
    Found::line(format!("{rule}; here are {}", here.len()))
}

/// The fields of a line, each with its place.
fn placed(line: &str) -> Vec<(Range<usize>, &str)> {
    let mut at = 0;
    let place = |field: &'_ str| {
        let part = at..at + field.len();
        at = part.end + 1;
        part
    };
    let parts: Vec<Range<usize>> = line.split(' ').map(place).collect();
    parts.into_iter().zip(line.split(' ')).collect()
}

fn is_name(field: &str) -> bool {
    let letter = |byte: u8| matches!(byte, b'a'..=b'z' | b'0'..=b'9' | b'_');
    (1..=16).contains(&field.len()) && field.bytes().all(letter)
}

/// A number without leading zeros, up to the largest.
fn is_number(field: &str, largest: u64) -> bool {
    let digits = !field.is_empty() && field.bytes().all(|byte| byte.is_ascii_digit());
    let leading = field.len() > 1 && field.starts_with('0');
    digits && !leading && field.parse().is_ok_and(|number: u64| number <= largest)
}

fn is_value(field: &str) -> bool {
    field == "-" || is_number(field, 4_000_000_000)
}

/// 5: the first field that is not in its form.
fn form(lines: &Lines) -> Found {
    let known = lines.names();
    for (field, (part, text)) in placed(lines.line).into_iter().enumerate() {
        let sentence = match (lines.blank, field) {
            (None, 0) if !is_name(text) => of_name(&[], text, 5),
            (None, 1) if !matches!(text, "c" | "a") => {
                format!("'{text}' is no kind: c for something one has or knows, a for an account")
            }
            (None, 2) if !is_value(text) => format!("'{text}' is no start: {VALUE}"),
            (None, 3) if !is_value(text) => format!("'{text}' is no loss: {VALUE}"),
            (None, 4) if !is_number(text, 9) => format!("'{text}' is no rank: 0 to 9"),
            (Some(_), 0 | 1) if !is_name(text) => of_name(&known, text, 5),
            (Some(_), 2) if !is_number(text, 7) => format!("'{text}' is no colour: 0 to 7"),
            (Some(_), 3) if !is_number(text, 1) => {
                format!("'{text}' is neither 1, for recovery, nor 0")
            }
            _ => continue,
        };
        return Found::at(part, sentence);
    }
    Found::line(words::sentence(5))
}

/// 6.
fn name_twice(lines: &Lines) -> Found {
    let name = lines.line.split(' ').next().unwrap_or_default();
    let sentence = format!("another item is called '{name}'; every item has its own name");
    Found::at(0..name.len(), sentence)
}

/// 7: which of the four bounds.
fn bound(lines: &Lines) -> Found {
    if lines.blank.is_some() {
        return Found::line("a sheet has at most 256 arrows");
    }
    let items = lines.items();
    let full = |field: usize| {
        let given = |row: &&Vec<&str>| row.get(field).is_some_and(|value| *value != "-");
        items.iter().filter(given).count() >= MOST_CHOSEN
    };
    let here = placed(lines.line);
    match &here[..] {
        _ if items.len() >= MOST_ITEMS => Found::line("a sheet has at most 64 items"),
        [_, _, (part, start), ..] if *start != "-" && full(2) => {
            Found::at(part.clone(), "at most 14 items of a sheet have a start; the others have -")
        }
        [_, _, _, (part, loss), ..] if *loss != "-" && full(3) => {
            Found::at(part.clone(), "at most 14 items of a sheet have a loss; the others have -")
        }
        _ => Found::line(words::sentence(7)),
    }
}

/// 8.
fn unknown(lines: &Lines) -> Found {
    let known = lines.names();
    let unknown = |(_, name): &(Range<usize>, &str)| !known.iter().any(|item| item == name);
    match placed(lines.line).into_iter().take(2).find(unknown) {
        Some((part, name)) => {
            let meant = did_you_mean(&known, name);
            Found::at(part, format!("no item is called '{}'{meant}", printable(name.as_bytes())))
        }
        None => Found::line(words::sentence(8)),
    }
}

/// 9: the row that has the arrow already.
fn arrow_twice(lines: &Lines) -> Found {
    let arrow = |row: &str| row.rsplit_once(' ').map(|(arrow, _)| arrow.to_string());
    let same = |row: &&str| arrow(row).is_some() && arrow(row) == arrow(lines.line);
    match lines.above.iter().position(same) {
        Some(at) => {
            let sentence = "the arrow is there already: the same from, to and colour as in line";
            Found::line(format!("{sentence} {}", at + 1))
        }
        None => Found::line(words::sentence(9)),
    }
}
