//! Hand-in lines: right ones, in any order, and damaged ones; and what each came to.

use super::Rng;
use crate::calls::Calls;
use crate::handin::{self, No, MAX_SETS};
use crate::register::Call;
use std::collections::BTreeMap;

/// The students of an afternoon: few, so that they come again.
const STUDENTS: [&str; 5] = ["0", "7", "8", "1042", "4000000000"];

/// Fields that are no student, no name, no way and no set, or hardly one.
const STUDENTLIKE: [&str; 8] =
    ["4000000001", "00", "007", "-1", "1e3", "18446744073709551621", "4000000000000000000000", "x"];
const NAMELIKE: [&str; 7] = ["Mail", "mail.", "-", "a_name_of_17_byte", "open", "withdraw", "0"];
const WAYLIKE: [&str; 6] = ["Open", "locked", "ope", "opens", "-", "withdraw"];
const SETLIKE: [&str; 6] = ["--", "+", "-+-", "mail,pw", "1", "lock"];

/// A set's text, its names in any order; `-` for the empty set.
fn set_text(rng: &mut Rng, names: &[String], set: u64) -> String {
    let text = handin::set_text(names, set & low_bits(names.len())).expect("all have names");
    let mut parts: Vec<&str> = text.split('+').collect();
    if rng.chance(1, 2) {
        rng.shuffle(&mut parts);
    }
    parts.join("+")
}

fn low_bits(count: usize) -> u64 {
    if count < 64 {
        (1 << count) - 1
    } else {
        u64::MAX
    }
}

/// A set that is damaged: a name twice, cut off, unknown, in capitals, an empty one, an odd sign.
fn bad_set(rng: &mut Rng, names: &[String]) -> String {
    let name = rng.pick(names).clone();
    let other = rng.pick(names).clone();
    match rng.below(9) {
        0 => format!("{name}+{name}"),
        1 => format!("{name}+{other}+{name}"),
        2 => name[..name.len() - 1].to_string(),
        3 => format!("{name}x"),
        4 => name.to_uppercase(),
        5 => format!("{name}++{other}"),
        6 => format!("+{name}"),
        7 => format!("{name}+"),
        _ => (*rng.pick(&SETLIKE)).to_string(),
    }
}

/// A line of an afternoon: sets of the target's own list, and others.
pub fn line(rng: &mut Rng, calls: &Calls, names: &[String]) -> Vec<u8> {
    let student = *rng.pick(&STUDENTS);
    if rng.chance(1, 8) {
        return format!("{student} withdraw").into_bytes();
    }
    let target = rng.below(names.len());
    let lock = rng.chance(1, 2);
    let list =
        if lock { calls.lockout_list(target as u64) } else { calls.opening_list(target as u64) };
    let mut sets: Vec<u64> = list.unwrap_or_default().iter().copied().take(rng.below(6)).collect();
    for _ in 0..rng.below(4) {
        sets.push(rng.number() & rng.number());
    }
    rng.shuffle(&mut sets);
    let way = if lock { "lock" } else { "open" };
    let mut text = format!("{student} {} {way}", names[target]);
    for set in sets {
        text += &format!(" {}", set_text(rng, names, set));
    }
    text.into_bytes()
}

/// The line with one thing wrong, or perhaps still right.
pub fn damaged(rng: &mut Rng, names: &[String], line: &[u8]) -> Vec<u8> {
    let mut fields: Vec<Vec<u8>> = line.split(|&byte| byte == b' ').map(<[u8]>::to_vec).collect();
    let at = rng.below(fields.len());
    let bad = match at {
        0 => (*rng.pick(&STUDENTLIKE)).to_string(),
        1 if rng.chance(1, 2) => format!("{}z", rng.pick(names)),
        1 => (*rng.pick(&NAMELIKE)).to_string(),
        2 => (*rng.pick(&WAYLIKE)).to_string(),
        _ => bad_set(rng, names),
    };
    match rng.below(9) {
        0..=3 => fields[at] = bad.into_bytes(),
        4 => fields[at] = Vec::new(),
        5 => fields.truncate(at),
        6 => fields.insert(at, Vec::new()),
        7 => fields.push(bad_set(rng, names).into_bytes()),
        _ => {
            let mut bytes = line.to_vec();
            let place = rng.below(bytes.len() + 1);
            let odd = *rng.pick(&[0, 9, 10, 13, 31, 32, 43, 45, 126, 127, 128, 255]);
            bytes.splice(place..(place + 1).min(line.len()), [odd]);
            return bytes;
        }
    }
    fields.join(&b' ')
}

/// Lines at the bounds: no byte, one space, as many sets as may be, and one more.
pub fn bounds(names: &[String]) -> Vec<Vec<u8>> {
    let handed = |many: usize| format!("7 {} lock{}", names[0], " -".repeat(many)).into_bytes();
    let all = format!("8 {} open {}", names[0], names.join("+")).into_bytes();
    let last = format!("8 {} open {}+x", names[0], names.join("+")).into_bytes();
    let wrong_behind = [handed(MAX_SETS), b" +".to_vec()].concat();
    vec![
        Vec::new(),
        b" ".to_vec(),
        b"7".to_vec(),
        b"7 ".to_vec(),
        handed(0),
        handed(MAX_SETS - 1),
        handed(MAX_SETS),
        handed(MAX_SETS + 1),
        wrong_behind,
        all,
        last,
    ]
}

/// How often lines came to each end, by its name: a number with the field that it was about.
#[derive(Debug, Default)]
pub struct Ends(BTreeMap<String, usize>);

impl Ends {
    /// Counts a line.
    pub fn count(&mut self, said: &Result<Call, No>) {
        let name = match said {
            Ok(Call::Withdraw(_)) => "withdrawn".to_string(),
            Ok(Call::HandIn(attempt)) if attempt.sets.is_empty() => "no sets".to_string(),
            Ok(Call::HandIn(attempt)) if attempt.lock => "lock".to_string(),
            Ok(Call::HandIn(_)) => "open".to_string(),
            Err(No { number, field }) => format!("{number} of {}", (*field).min(4)),
        };
        self.add(&name);
    }

    /// Counts an end by its name.
    pub fn add(&mut self, name: &str) {
        *self.0.entry(name.to_string()).or_default() += 1;
    }

    /// The names with fewer than these.
    pub fn too_few(&self, fewest: &[(&'static str, usize)]) -> Vec<&'static str> {
        let few = |(name, many): &&(&str, usize)| self.0.get(*name).copied().unwrap_or(0) < *many;
        fewest.iter().filter(few).map(|(name, _)| *name).collect()
    }
}
