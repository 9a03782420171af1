//! The words for a no to a name, a set or a hand-in line. The number and the field are the proved
//! reader's; the words are found by looking at the text.

use crate::near::did_you_mean;
use crate::refusals::printable;
use std::ops::Range;

const NAME: &str = "1 to 16 of a-z, 0-9 and _";

/// A sentence, and the part of the text that it is about: an empty one where that is all of it.
pub struct Words {
    /// What is wrong.
    pub sentence: String,
    /// Where.
    pub part: Range<usize>,
}

/// Of a name: 5, 8.
pub fn of_name(names: &[String], name: &str, number: u64) -> String {
    let (shown, meant) = (printable(name.as_bytes()), did_you_mean(names, name));
    match number {
        8 => format!("no item is called '{shown}'{meant}"),
        _ => format!("'{shown}' is no name: {NAME}{meant}"),
    }
}

/// Of a set: 5, 8, 6, the part being that of the name that is meant.
pub fn of_set(names: &[String], set: &str, number: u64) -> Words {
    let whole = 0..set.len();
    if number == 5 {
        let sentence =
            "a set is names joined by +, as mailpw+token, or - for the empty set; a name is ";
        return Words { sentence: format!("{sentence}{NAME}"), part: whole };
    }
    let mut at = 0;
    let mut earlier: Vec<&str> = Vec::new();
    for name in set.split('+') {
        let part = at..at + name.len();
        if number == 8 && !names.iter().any(|known| known == name) {
            return Words { sentence: of_name(names, name, 8), part };
        }
        if number == 6 && earlier.contains(&name) {
            return Words { sentence: format!("'{name}' stands in the set twice"), part };
        }
        earlier.push(name);
        at += name.len() + 1;
    }
    Words { sentence: crate::words::sentence(number).to_string(), part: whole }
}

/// Of a line that is refused with this number, asked of this field.
pub fn of_line(names: &[String], line: &[u8], number: u64, field: u64) -> Words {
    let text = String::from_utf8_lossy(line);
    match number {
        2 => odd_character(line),
        4 => Words {
            sentence:
                "a hand-in is: student account way set set .. and a withdrawal is: student withdraw"
                    .to_string(),
            part: 0..0,
        },
        7 => {
            let sets = text.split(' ').count().saturating_sub(3);
            Words {
                sentence: format!("a hand-in has at most 16384 sets; here are {sets}"),
                part: 0..0,
            }
        }
        27 => {
            let student = text.split(' ').next().unwrap_or_default();
            Words { sentence: format!("student {student} has handed nothing in"), part: 0..0 }
        }
        5 | 6 | 8 => of_field(names, &text, number, field),
        _ => Words { sentence: crate::words::sentence(number).to_string(), part: 0..0 },
    }
}

/// The first byte that is no plain letter, digit or sign: a whole character, where it is one.
fn odd_character(line: &[u8]) -> Words {
    let at = line.iter().position(|byte| !(32..=126).contains(byte)).unwrap_or(0);
    let more = line[at..].iter().skip(1).take_while(|&&byte| byte & 0xc0 == 0x80).count();
    let sentence = "only plain letters, digits and signs may stand in a line".to_string();
    Words { sentence, part: at..at + 1 + more }
}

fn of_field(names: &[String], line: &str, number: u64, field: u64) -> Words {
    let place = (field as usize).saturating_sub(1);
    let before: usize = line.split(' ').take(place).map(|text| text.len() + 1).sum();
    let text = line.split(' ').nth(place).unwrap_or_default();
    let words = match field {
        1 => {
            let rule = "0 to 4000000000 without leading zeros";
            whole(text, format!("'{text}' is no student number: {rule}"))
        }
        2 => whole(text, of_name(names, text, number)),
        3 => whole(text, no_way(text)),
        _ => of_set(names, text, number),
    };
    Words { part: before + words.part.start..before + words.part.end, ..words }
}

fn whole(text: &str, sentence: String) -> Words {
    Words { sentence, part: 0..text.len() }
}

/// 5, of a way.
pub fn no_way(text: &str) -> String {
    format!("'{}' is no way: open or lock", printable(text.as_bytes()))
}
