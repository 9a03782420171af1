//! Hand-ins by name: a set as names joined by `+`, and the lines of text by which a student hands sets
//! in or is withdrawn:
//!
//! ```text
//! student target way set set ..        way is open or lock; any number of sets, none too
//! student withdraw
//! ```
//!
//! One space between fields; student 0 to 4,000,000,000 without leading zeros; at most 16,384 sets.

use crate::register::{Attempt, Call};

/// The most sets of one line.
pub const MAX_SETS: usize = 16_384;

/// The number of a no about a line, and its field (the first is 1; 0 for the whole line).
#[derive(Clone, Copy, Debug, PartialEq, Eq)]
pub struct No {
    /// 2, 4, 5, 6, 7 or 8.
    pub number: u8,
    /// The field.
    pub field: u64,
}

fn ask(number: u8, field: usize, answer: bool) -> Result<(), No> {
    if answer {
        Ok(())
    } else {
        Err(No { number, field: field as u64 })
    }
}

/// The parts of a text between its separators: n of them part n + 1.
fn parts(text: &[u8], separator: u8) -> Vec<Vec<u8>> {
    let mut parts = vec![Vec::new()];
    for &byte in text {
        if byte == separator {
            parts.push(Vec::new());
        } else {
            parts.last_mut().expect("there is always one").push(byte);
        }
    }
    parts
}

/// 1 to 16 of a-z, 0-9 and `_`?
fn is_name(text: &[u8]) -> bool {
    let allowed = |byte: &u8| matches!(byte, b'a'..=b'z' | b'0'..=b'9' | b'_');
    !text.is_empty() && text.len() <= 16 && text.iter().all(allowed)
}

/// The number of the item with this name. 5, 8.
fn item(names: &[String], text: &[u8]) -> Result<usize, u8> {
    if !is_name(text) {
        return Err(5);
    }
    names.iter().position(|name| name.as_bytes() == text).ok_or(8)
}

/// The set that a text names. 5, 8, 6.
pub fn read_set(names: &[String], text: &[u8]) -> Result<u64, u8> {
    if text == b"-" {
        return Ok(0);
    }
    let mut items: Vec<usize> = Vec::new();
    for part in parts(text, b'+') {
        let item = item(names, &part)?;
        if items.contains(&item) {
            return Err(6);
        }
        items.push(item);
    }
    Ok(items.into_iter().map(|item| 2u64.pow(item as u32)).sum())
}

/// The names of a set, rising and joined by `+`, or `-`; nothing where it has an item without a name.
pub fn set_text(names: &[String], set: u64) -> Option<String> {
    let items: Vec<usize> = (0..64).filter(|item| set >> item & 1 == 1).collect();
    if items.is_empty() {
        return Some("-".to_string());
    }
    let names: Option<Vec<&str>> =
        items.into_iter().map(|item| names.get(item).map(String::as_str)).collect();
    names.map(|names| names.join("+"))
}

/// A number from 0 to 4,000,000,000 without leading zeros.
fn student(text: &[u8]) -> Option<u64> {
    let digits = !text.is_empty() && text.iter().all(u8::is_ascii_digit);
    if !digits || (text[0] == b'0' && text.len() > 1) || text.len() > 10 {
        return None;
    }
    let number = text.iter().fold(0u64, |number, digit| number * 10 + u64::from(digit - b'0'));
    (number <= 4_000_000_000).then_some(number)
}

/// What a line says, without its LF.
pub fn read_line(names: &[String], line: &[u8]) -> Result<Call, No> {
    ask(2, 0, line.iter().all(|byte| (32..=126).contains(byte)))?;
    let fields = parts(line, b' ');
    for (before, field) in fields.iter().enumerate() {
        ask(4, before + 1, !field.is_empty())?;
    }
    ask(4, 2, fields.len() >= 2)?;
    ask(4, 3, fields.len() >= 3 || fields[1] == b"withdraw")?;
    let Some(student) = student(&fields[0]) else { return Err(No { number: 5, field: 1 }) };
    if fields.len() == 2 {
        return Ok(Call::Withdraw(student));
    }
    let target = item(names, &fields[1]).map_err(|number| No { number, field: 2 })?;
    ask(5, 3, fields[2] == b"open" || fields[2] == b"lock")?;
    let mut sets = Vec::new();
    for (before, field) in fields.iter().enumerate().skip(3) {
        let no = |number| No { number, field: before as u64 + 1 };
        sets.push(read_set(names, field).map_err(no)?);
    }
    ask(7, 0, sets.len() <= MAX_SETS)?;
    Ok(Call::HandIn(Attempt { student, target: target as u64, lock: fields[2] == b"lock", sets }))
}
