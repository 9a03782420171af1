//! `graph`: the drawing, for Graphviz. Accounts are boxes; colours are numbered, and in eight fixed
//! colours; recovery is dashed.

use crate::lab::{items, Lab, Way, COLOURS};
use crate::stop::Answer;

/// One for each colour number, that can be told apart on paper and by most eyes.
const PENS: [&str; COLOURS] =
    ["black", "blue3", "red3", "darkgreen", "darkorange3", "purple3", "deepskyblue3", "gray40"];

/// What is to be shown filled: a set in dark, and what it reaches in light.
pub struct Filled {
    /// The set.
    pub set: u64,
    /// What it opens or takes away.
    pub way: Way,
}

/// The drawing as text.
pub fn graph(lab: &Lab, filled: Option<Filled>) -> Answer<String> {
    let (set, reached) = match filled {
        Some(Filled { set, way }) => (set, lab.spread(set, way)?),
        None => (0, 0),
    };
    let mut text = "digraph sheet {\n  rankdir=LR;\n".to_string();
    for item in 0..lab.count() {
        let shape = if lab.is_account(item) { "box" } else { "ellipse" };
        let fill = match (set >> item & 1, reached >> item & 1) {
            (1, _) => ", style=filled, fillcolor=gray60",
            (_, 1) => ", style=filled, fillcolor=gray90",
            _ => "",
        };
        text += &format!("  \"{}\" [shape={shape}{fill}];\n", lab.name(item)?);
    }
    for item in 0..lab.count() {
        for colour in lab.colours(item) {
            text += &arrows(lab, item, colour)?;
        }
    }
    Ok(text + "}\n")
}

/// The arrows of one colour into an item, by their sources.
fn arrows(lab: &Lab, item: usize, colour: usize) -> Answer<String> {
    let (mut text, to, pen) = (String::new(), lab.name(item)?, PENS[colour]);
    for from in items(lab.row(item, colour)) {
        let recovery = lab.recovery(item, colour) >> from & 1 == 1;
        let style = if recovery { ", style=dashed" } else { "" };
        let from = lab.name(from)?;
        let look = format!("label=\"{colour}\", color={pen}, fontcolor={pen}{style}");
        text += &format!("  \"{from}\" -> \"{to}\" [{look}];\n");
    }
    Ok(text)
}
