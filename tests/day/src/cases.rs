//! Hand-in files as people write them: right lines, damaged ones, and what editors leave.

use crate::twin::{Twin, WAYS};
use brute::cases::{registers, Rng};
use brute::register::{Attempt, Call};

const STUDENTS: [u64; 5] = [0, 7, 8, 1042, 4_000_000_000];

/// A line that the form allows.
fn good(rng: &mut Rng, twin: &Twin) -> String {
    let student = *rng.pick(&STUDENTS);
    match registers::call(rng, &twin.calls) {
        Call::Withdraw(_) => format!("{student} withdraw"),
        Call::HandIn(Attempt { target, lock, sets, .. }) => {
            let count = twin.names.len();
            let target = &twin.names[target as usize % count];
            let mut line = format!("{student} {target} {}", WAYS[usize::from(lock)]);
            let all = if count == 64 { u64::MAX } else { (1 << count) - 1 };
            for set in sets.iter().take(rng.between(0, 12)) {
                line += &format!(" {}", shuffled(rng, twin, set & all));
            }
            line
        }
    }
}

/// The names of a set in any order.
fn shuffled(rng: &mut Rng, twin: &Twin, set: u64) -> String {
    let text = twin.set(set);
    let mut names: Vec<&str> = text.split('+').collect();
    rng.shuffle(&mut names);
    names.join("+")
}

/// One small mistake.
fn damaged(rng: &mut Rng, line: &str) -> Vec<u8> {
    let mut fields: Vec<String> = line.split(' ').map(str::to_string).collect();
    let place = rng.below(fields.len());
    match rng.below(10) {
        0 => fields[place] = fields[place].to_uppercase(),
        1 => fields[place] = fields[place].chars().skip(1).collect(),
        2 => fields[place].push(*rng.pick(&['d', 'x', '_', '0'])),
        3 => fields[place] = fields[place].replace('+', ","),
        4 => fields[place] = format!("0{}", fields[place]),
        5 => fields.truncate(place + 1),
        6 => fields[place] = format!("{0}+{0}", fields[place]),
        7 => {
            fields[place] =
                rng.pick(&["+", "-", "a++b", "shut", "withdraw", "4000000001"]).to_string()
        }
        8 => fields.push("nobody".to_string()),
        _ => {
            let mut bytes = line.as_bytes().to_vec();
            let at = rng.below(bytes.len());
            bytes[at] = *rng.pick(&[0, 7, 127, 195, 255, b'\r', b'+', b'-', b'=']);
            return bytes;
        }
    }
    fields.join(" ").into_bytes()
}

/// What an editor leaves in a line that is otherwise right.
fn untidy(rng: &mut Rng, line: &[u8]) -> Vec<u8> {
    let mut bytes = line.to_vec();
    for _ in 0..rng.between(1, 3) {
        match rng.below(4) {
            0 => bytes.insert(0, b' '),
            1 => bytes.extend(b" \t"),
            _ => {
                let spaces: Vec<usize> = (0..bytes.len()).filter(|&at| bytes[at] == b' ').collect();
                if let Some(&at) = spaces.first() {
                    bytes.insert(at, *rng.pick(b" \t"));
                }
            }
        }
    }
    bytes
}

/// The file of an afternoon.
pub fn handins(rng: &mut Rng, twin: &Twin) -> Vec<u8> {
    let windows = rng.chance(1, 5);
    let mut file = if rng.chance(1, 6) { b"\xef\xbb\xbf".to_vec() } else { Vec::new() };
    for _ in 0..rng.between(0, 12) {
        let line = good(rng, twin);
        let mut bytes = if rng.chance(1, 4) { damaged(rng, &line) } else { line.into_bytes() };
        if rng.chance(1, 5) {
            bytes = untidy(rng, &bytes);
        }
        if rng.chance(1, 12) {
            bytes = rng.pick(&[&b""[..], b"# a note", b"  \t", b" # another"]).to_vec();
        }
        file.extend(bytes);
        file.extend(if windows { &b"\r\n"[..] } else { b"\n" });
    }
    if rng.chance(1, 5) {
        file.pop();
    }
    file
}

/// A kinds file with a row for each starting item, and for some others; the kind of each item.
pub fn kinds(rng: &mut Rng, twin: &Twin) -> (String, Vec<u8>) {
    let kinds: Vec<u8> = twin.names.iter().map(|_| rng.below(6) as u8).collect();
    let mut rows = Vec::new();
    for (item, name) in twin.names.iter().enumerate() {
        if twin.chosen(false) >> item & 1 == 1 || rng.chance(1, 3) {
            let place = ["remote", "local"][usize::from(kinds[item] / 3)];
            let skill = ["none", "some", "expert"][usize::from(kinds[item] % 3)];
            rows.push(format!("{name} {place} {skill}\n"));
        }
    }
    rng.shuffle(&mut rows);
    (format!("name location skill\n{}", rows.concat()), kinds)
}
