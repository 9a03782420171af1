//! Reading a sheet: questions 1 to 11 of 01 in their order, the setup and the names.

use crate::setup::{
    single, Place, Setup, COLOURS, MAX_EDGES, MAX_LOSABLE, MAX_RANK, MAX_STARTING, MAX_VALUE,
    PLACES, UNUSED,
};
use std::ops::Range;

/// The most bytes of a sheet.
pub const MAX_BYTES: usize = 16_384;
/// The most bytes of a name.
pub const MAX_NAME: usize = 16;
/// The first line of a sheet.
pub const ITEM_HEADER: &[u8] = b"name kind start loss rank";
/// The line before the edge rows.
pub const EDGE_HEADER: &[u8] = b"from to colour rec";

/// The number of the question with a no, and the line (the first is 1; 0 for the whole text).
#[derive(Clone, Copy, Debug, PartialEq, Eq)]
pub struct Refusal {
    /// 1 to 11.
    pub number: u8,
    /// 0 for questions 1 and 2.
    pub line: u64,
}

/// An accepted sheet.
#[derive(Clone, Debug, PartialEq, Eq)]
pub struct Sheet {
    /// The setup that its rows state.
    pub setup: Setup,
    /// Where in the sheet's bytes each item's name stands.
    pub names: Vec<Range<usize>>,
}

impl Sheet {
    /// The items' names, where `text` is the sheet's bytes.
    pub fn names_in(&self, text: &[u8]) -> Vec<String> {
        let name = |part: &Range<usize>| String::from_utf8_lossy(&text[part.clone()]).into_owned();
        self.names.iter().map(name).collect()
    }
}

/// Reads a sheet.
pub fn read(text: &[u8]) -> Result<Sheet, Refusal> {
    if text.len() > MAX_BYTES {
        return Err(Refusal { number: 1, line: 0 });
    }
    if !is_plain_text(text) {
        return Err(Refusal { number: 2, line: 0 });
    }
    let mut reader = Reader::new(text);
    let lines = lines_of(text);
    for (above, line) in lines.iter().enumerate() {
        let asked = reader.take_line(line.clone());
        asked.map_err(|number| Refusal { number, line: above as u64 + 1 })?;
    }
    // Question 11, where the text is over.
    if reader.part != Part::Edges {
        return Err(Refusal { number: 11, line: lines.len() as u64 + 1 });
    }
    Ok(Sheet { setup: reader.setup, names: reader.names })
}

/// What stands where the setup would stand: the sheet's setup, or the empty one if refused.
pub fn setup_of(text: &[u8]) -> Setup {
    read(text).map_or(Setup::empty(), |sheet| sheet.setup)
}

/// The part of the sheet's bytes that holds an item's name; for a refused sheet or an item
/// that isn't there, the empty part at the sheet's start.
pub fn name_of(text: &[u8], item: u64) -> Range<usize> {
    let Ok(sheet) = read(text) else { return 0..0 };
    if item < sheet.setup.count {
        sheet.names[item as usize].clone()
    } else {
        0..0
    }
}

/// Question 2: not empty, only LF and bytes 32 to 126, LF last?
fn is_plain_text(text: &[u8]) -> bool {
    let plain = |&byte: &u8| byte == b'\n' || (32..=126).contains(&byte);
    text.last() == Some(&b'\n') && text.iter().all(plain)
}

/// The lines of a text that ends in LF, as parts of it without their LF.
fn lines_of(text: &[u8]) -> Vec<Range<usize>> {
    let mut lines = Vec::new();
    let mut start = 0;
    for (place, &byte) in text.iter().enumerate() {
        if byte == b'\n' {
            lines.push(start..place);
            start = place + 1;
        }
    }
    lines
}

/// What the next line should be.
#[derive(Clone, Copy, PartialEq, Eq)]
enum Part {
    ItemHeader,
    Items,
    EdgeHeader,
    Edges,
}

struct Reader<'a> {
    text: &'a [u8],
    part: Part,
    setup: Setup,
    names: Vec<Range<usize>>,
    /// The edge rows so far: from, to, colour.
    edges: Vec<(usize, usize, usize)>,
}

impl Reader<'_> {
    fn new(text: &[u8]) -> Reader<'_> {
        let setup = Setup::empty();
        Reader { text, part: Part::ItemHeader, setup, names: Vec::new(), edges: Vec::new() }
    }

    /// Asks the questions of one line; a no is its number.
    fn take_line(&mut self, line: Range<usize>) -> Result<(), u8> {
        let text = self.text;
        let bytes = &text[line.clone()];
        match self.part {
            Part::ItemHeader => {
                ask(3, bytes == ITEM_HEADER)?;
                self.part = Part::Items;
            }
            Part::Items if bytes.is_empty() => {
                ask(10, self.setup.count > 0)?;
                self.part = Part::EdgeHeader;
            }
            Part::Items => self.take_item(bytes, line.start)?,
            Part::EdgeHeader => {
                ask(3, bytes == EDGE_HEADER)?;
                self.part = Part::Edges;
            }
            Part::Edges => self.take_edge(bytes)?,
        }
        Ok(())
    }

    /// An item row whose first byte stands at `start` of the text.
    fn take_item(&mut self, row: &[u8], start: usize) -> Result<(), u8> {
        let fields: Vec<&[u8]> = row.split(|&byte| byte == b' ').collect();
        ask(4, fields.len() == 5 && fields.iter().all(|field| !field.is_empty()))?;
        let place = item_fields(&fields).ok_or(5)?;
        ask(6, self.find(fields[0]).is_none())?;
        let items = self.names.len();
        let starting = self.setup.starting().len() + place.start.iter().count();
        let losable = self.setup.losable().len() + place.loss.iter().count();
        ask(7, items < PLACES && starting <= MAX_STARTING && losable <= MAX_LOSABLE)?;
        self.setup.places[items] = place;
        self.setup.count += 1;
        self.names.push(start..start + fields[0].len());
        Ok(())
    }

    fn take_edge(&mut self, row: &[u8]) -> Result<(), u8> {
        let fields: Vec<&[u8]> = row.split(|&byte| byte == b' ').collect();
        ask(4, fields.len() == 4 && fields.iter().all(|field| !field.is_empty()))?;
        let (colour, recovery) = edge_fields(&fields).ok_or(5)?;
        let from = self.find(fields[0]).ok_or(8)?;
        let to = self.find(fields[1]).ok_or(8)?;
        ask(9, !self.edges.contains(&(from, to, colour)))?;
        ask(7, self.edges.len() < MAX_EDGES)?;
        self.edges.push((from, to, colour));
        self.setup.places[to].rows[colour] |= single(from);
        if recovery {
            self.setup.places[to].recovery[colour] |= single(from);
        }
        Ok(())
    }

    /// The item with a name, if one of the item rows above has it.
    fn find(&self, name: &[u8]) -> Option<usize> {
        self.names.iter().position(|part| &self.text[part.clone()] == name)
    }
}

fn ask(number: u8, yes: bool) -> Result<(), u8> {
    if yes {
        Ok(())
    } else {
        Err(number)
    }
}

/// Question 5 of an item row's five fields: the place that they state.
fn item_fields(fields: &[&[u8]]) -> Option<Place> {
    if !is_name(fields[0]) || !matches!(fields[1], b"c" | b"a") {
        return None;
    }
    Some(Place {
        kind: fields[1][0],
        start: value_or_blank(fields[2])?,
        loss: value_or_blank(fields[3])?,
        rank: number_up_to(fields[4], MAX_RANK)?,
        ..UNUSED
    })
}

/// Question 5 of an edge row's four fields: its colour and whether it is a recovery edge.
fn edge_fields(fields: &[&[u8]]) -> Option<(usize, bool)> {
    if !is_name(fields[0]) || !is_name(fields[1]) {
        return None;
    }
    let colour = number_up_to(fields[2], COLOURS as u64 - 1)?;
    let recovery = number_up_to(fields[3], 1)?;
    Some((colour as usize, recovery == 1))
}

/// 1 to 16 of a-z, 0-9, `_`.
fn is_name(field: &[u8]) -> bool {
    let letter = |byte: &u8| matches!(byte, b'a'..=b'z' | b'0'..=b'9' | b'_');
    (1..=MAX_NAME).contains(&field.len()) && field.iter().all(letter)
}

/// A start or loss field: `Some(None)` for the blank, `None` for what is neither.
fn value_or_blank(field: &[u8]) -> Option<Option<u64>> {
    if field == b"-" {
        Some(None)
    } else {
        number_up_to(field, MAX_VALUE).map(Some)
    }
}

/// A decimal number without leading zeros, of at most `most`. A number of any length is judged
/// by its value: one too large for 64 bits stays at the largest there is, and nothing wraps.
fn number_up_to(field: &[u8], most: u64) -> Option<u64> {
    let digits_alone = !field.is_empty() && field.iter().all(u8::is_ascii_digit);
    let leading_zero = field.len() > 1 && field[0] == b'0';
    if !digits_alone || leading_zero {
        return None;
    }
    let append =
        |number: u64, digit: &u8| number.saturating_mul(10).saturating_add(u64::from(digit - b'0'));
    Some(field.iter().fold(0, append)).filter(|&number| number <= most)
}
