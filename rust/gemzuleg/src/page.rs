//! A page to print, as HTML: nothing is fetched, nothing runs, and the style for A4 stands inside. Tables carry
//! their name in `data-table`, so that what stands in them can be checked and words stay free.

use crate::files;
use crate::lab::Lab;
use crate::stop::Answer;

const STYLE: &str = include_str!("page.css");

/// A sheet that a paper is made of.
pub struct Paper<'a> {
    /// The sheet.
    pub lab: &'a Lab,
    /// Its file, as a shell takes it.
    pub file: String,
    /// The lab's name.
    pub name: String,
    /// The accounts that are asked about.
    pub targets: Vec<usize>,
}

impl<'a> Paper<'a> {
    /// Of some accounts, each once; of all where none is named.
    pub fn new(lab: &'a Lab, file: &str, accounts: &[String]) -> Answer<Paper<'a>> {
        let mut targets: Vec<usize> = Vec::new();
        for account in accounts {
            let target = lab.account(account)?;
            if !targets.contains(&target) {
                targets.push(target);
            }
        }
        if accounts.is_empty() {
            targets = lab.accounts();
        }
        Ok(Paper { lab, file: quoted(file), name: lab_name(file).to_string(), targets })
    }

    /// Which lab it is of.
    pub fn of(&self) -> String {
        format!("lab <b>{}</b>", escaped(&self.name))
    }
}

/// The lab's name: its file's, without folder and ending.
pub fn lab_name(file: &str) -> &str {
    let last = file.rsplit('/').next().unwrap_or(file);
    match last.strip_suffix(".sheet").unwrap_or(last) {
        "-" | "" => "sheet",
        name => name,
    }
}

/// A file's name as one word of a shell's line.
fn quoted(file: &str) -> String {
    if files::as_field(file) == file {
        return file.to_string();
    }
    format!("'{}'", file.replace('\'', "'\\''"))
}

/// Text that stands for itself; what no page may have is shown as `?`.
pub fn escaped(text: &str) -> String {
    let mut out = String::new();
    for sign in text.chars() {
        match sign {
            '&' => out += "&amp;",
            '<' => out += "&lt;",
            '>' => out += "&gt;",
            '"' => out += "&quot;",
            '\u{fffe}' | '\u{ffff}' => out.push('?'),
            other if other.is_control() => out.push('?'),
            other => out.push(other),
        }
    }
    out
}

/// The names of a set, which may be broken behind a `+`.
pub fn set(names: &str) -> String {
    format!("<span class=\"set\">{}</span>", names.replace('+', "+<wbr/>"))
}

/// A whole page.
pub fn page(title: &str, body: &str) -> String {
    let head = format!("<meta charset=\"utf-8\"/>\n<title>{}</title>", escaped(title));
    let head = format!("<head>\n{head}\n<style>\n{STYLE}</style>\n</head>");
    format!("<!DOCTYPE html>\n<html lang=\"en\">\n{head}\n<body>\n{body}</body>\n</html>\n")
}

/// What a page begins with: its title, what it is of, and what is to stand below.
pub fn header(title: &str, of: &str, below: &str) -> String {
    let of = format!("<p class=\"lab\">Account review day, {of}</p>");
    format!("<header><h1>{title}</h1>{of}{below}</header>\n")
}

/// A table.
pub struct Grid {
    html: String,
    numbers: Vec<bool>,
    rows: usize,
}

impl Grid {
    /// With this name and these columns; one that begins with `#` has numbers.
    pub fn new(name: &str, columns: &[&str]) -> Grid {
        let mut html = format!("<table data-table=\"{name}\">\n<thead><tr>");
        let numbers: Vec<bool> = columns.iter().map(|column| column.starts_with('#')).collect();
        for column in columns {
            html += &match column.strip_prefix('#') {
                Some(column) => format!("<th class=\"n\">{column}</th>"),
                None => format!("<th>{column}</th>"),
            };
        }
        Grid { html: html + "</tr></thead>\n<tbody>\n", numbers, rows: 0 }
    }

    /// A row.
    pub fn row(&mut self, cells: &[&str]) {
        self.html += "<tr>";
        for (cell, number) in cells.iter().zip(&self.numbers) {
            self.html += if *number { "<td class=\"n\">" } else { "<td>" };
            self.html += cell;
            self.html += "</td>";
        }
        self.html += "</tr>\n";
        self.rows += 1;
    }

    /// The table; a sentence where there is no row.
    pub fn html(self, none: &str) -> String {
        match self.rows {
            0 => format!("<p>{none}</p>\n"),
            _ => self.html + "</tbody></table>\n",
        }
    }
}
