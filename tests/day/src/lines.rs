//! What a hand-in line says, read from the form's own words: character by character, with no splitting
//! that the command or the library has.

use brute::register::{Attempt, Call};

/// A no: its number, the field that it was asked of (0 for all of it).
pub type No = (u64, usize);

/// The words of a text between single separators.
pub fn words(text: &str, separator: char) -> Vec<String> {
    let mut all = vec![String::new()];
    for letter in text.chars() {
        if letter == separator {
            all.push(String::new());
        } else {
            all.last_mut().expect("one").push(letter);
        }
    }
    all
}

fn name_form(word: &str) -> bool {
    let good = "abcdefghijklmnopqrstuvwxyz0123456789_";
    (1..=16).contains(&word.chars().count()) && word.chars().all(|letter| good.contains(letter))
}

/// A name's item. 5, 8.
pub fn item(names: &[String], word: &str) -> Result<usize, u64> {
    if !name_form(word) {
        return Err(5);
    }
    names.iter().position(|name| name == word).ok_or(8)
}

/// A set by its names. 5, 8, 6.
pub fn set(names: &[String], word: &str) -> Result<u64, u64> {
    if word == "-" {
        return Ok(0);
    }
    let mut members: Vec<usize> = Vec::new();
    for name in words(word, '+') {
        let item = item(names, &name)?;
        if members.contains(&item) {
            return Err(6);
        }
        members.push(item);
    }
    Ok(members.iter().map(|&item| 1u64 << item).sum())
}

fn student(word: &str) -> Option<u64> {
    let number: u128 = word.parse().ok()?;
    (number <= 4_000_000_000 && number.to_string() == word).then_some(number as u64)
}

/// The call of the register that a line says.
pub fn read(names: &[String], line: &str) -> Result<Call, No> {
    if line.chars().any(|letter| !(' '..='~').contains(&letter)) {
        return Err((2, 0));
    }
    let fields = words(line, ' ');
    if let Some(empty) = fields.iter().position(String::is_empty) {
        return Err((4, empty + 1));
    }
    if fields.len() < 2 || (fields.len() == 2 && fields[1] != "withdraw") {
        return Err((4, fields.len() + 1));
    }
    let student = student(&fields[0]).ok_or((5, 1))?;
    if fields.len() == 2 {
        return Ok(Call::Withdraw(student));
    }
    let target = item(names, &fields[1]).map_err(|number| (number, 2))? as u64;
    let lock = match fields[2].as_str() {
        "open" => false,
        "lock" => true,
        _ => return Err((5, 3)),
    };
    let mut sets = Vec::new();
    for (place, field) in fields.iter().enumerate().skip(3) {
        sets.push(set(names, field).map_err(|number| (number, place + 1))?);
    }
    if sets.len() > 16_384 {
        return Err((7, 0));
    }
    Ok(Call::HandIn(Attempt { student, target, lock, sets }))
}
