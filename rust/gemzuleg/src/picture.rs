//! The picture of a sheet, by Graphviz where it is installed. What `dot` prints goes into the page only if it is a
//! drawing and nothing else.

use crate::screen;
use std::io::{self, Write};
use std::process::{Command, Stdio};

/// More than this is no picture of a sheet.
const MOST: usize = 1 << 20;
const PARTS: [&str; 8] = ["svg", "g", "title", "polygon", "ellipse", "path", "text", "polyline"];
const SIGNS: [&str; 5] = ["#", "gt;", "lt;", "amp;", "quot;"];

/// What `dot` makes of a drawing's text.
fn drawn(text: &str) -> io::Result<Option<String>> {
    let mut dot = Command::new("dot");
    let dot = dot.arg("-Tsvg").stdin(Stdio::piped()).stdout(Stdio::piped()).stderr(Stdio::null());
    let mut child = dot.spawn()?;
    if let Some(mut to) = child.stdin.take() {
        // The text fits into a pipe whole, so that this waits for nobody.
        let _ = to.write_all(text.as_bytes());
    }
    let done = child.wait_with_output()?;
    let svg = String::from_utf8(done.stdout).ok().filter(|_| done.status.success());
    Ok(svg.and_then(|svg| inner(&svg)))
}

/// The drawing without what stands before it, where it is one.
fn inner(svg: &str) -> Option<String> {
    let svg = svg.get(svg.find("<svg")?..)?.trim_end();
    (svg.len() <= MOST && is_drawing(svg)).then(|| format!("{svg}\n"))
}

/// Is it one element `svg` in which each part ends, and are all parts those of a drawing?
fn is_drawing(svg: &str) -> bool {
    let (mut open, mut rest, mut first) = (Vec::new(), svg, true);
    while let Some(at) = rest.find('<') {
        if !is_text(&rest[..at]) || (open.is_empty() && !first) {
            return false;
        }
        rest = &rest[at + 1..];
        let comment = rest.strip_prefix("!--");
        let Some(end) = rest.find(if comment.is_some() { "-->" } else { ">" }) else {
            return false;
        };
        let (part, behind) = rest.split_at(end);
        let whole = match comment {
            Some(_) => is_text(part) && !part[3.min(end)..].contains("--"),
            None => takes(&mut open, part),
        };
        if !whole {
            return false;
        }
        rest = &behind[if comment.is_some() { 3 } else { 1 }..];
        first = false;
    }
    open.is_empty() && rest.is_empty()
}

/// A part begins or ends; false where it may not.
fn takes<'a>(open: &mut Vec<&'a str>, tag: &'a str) -> bool {
    if let Some(name) = tag.strip_prefix('/') {
        return open.pop() == Some(name);
    }
    let whole = tag.strip_suffix('/');
    let tag = whole.unwrap_or(tag);
    let name = tag.split_ascii_whitespace().next().unwrap_or("");
    if whole.is_none() {
        open.push(name);
    }
    PARTS.contains(&name) && is_text(tag) && plain_fields(&tag[name.len()..])
}

/// `name="text"` each, and none that fetches, links or runs.
fn plain_fields(fields: &str) -> bool {
    let mut rest = fields.trim_start();
    while !rest.is_empty() {
        let Some((name, behind)) = rest.split_once("=\"") else { return false };
        let Some((value, behind)) = behind.split_once('"') else { return false };
        let letters = name.bytes().all(|byte| byte.is_ascii_alphabetic() || b":-".contains(&byte));
        let harmless = !name.contains("href") && !name.starts_with("on") && name != "style";
        if name.is_empty() || !letters || !harmless || value.contains("url(") {
            return false;
        }
        rest = behind.trim_start();
    }
    true
}

/// Signs that a page may have, and no name for a sign but the common ones.
fn is_text(text: &str) -> bool {
    let mut signs = text.split('&').skip(1);
    let known = signs.all(|behind| SIGNS.iter().any(|sign| behind.starts_with(sign)));
    known
        && !text.contains('<')
        && !text.chars().any(|sign| sign.is_control() && !sign.is_ascii_whitespace())
}

/// The picture of a drawing's text; none without `dot`. A `dot` that is there and gives none is told of.
pub fn picture(text: &str) -> Option<String> {
    match drawn(text) {
        Ok(None) => {
            screen::tell("gemzuleg: dot: it gave no picture; the paper has none\n");
            None
        }
        Ok(svg) => svg,
        Err(_) => None,
    }
}
