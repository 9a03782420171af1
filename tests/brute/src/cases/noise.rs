//! Texts of which nothing is known beforehand: random bytes, and accepted sheets with a few
//! random changes.

use super::draft::joined;
use super::random::random_draft;
use super::{Rng, SheetCase};
use crate::sheet::MAX_BYTES;

/// Random texts of all kinds in turn.
pub fn noise(seed: u64, count: usize) -> impl Iterator<Item = SheetCase> {
    type Make = fn(&mut Rng) -> Vec<u8>;
    const KINDS: &[(&str, Make)] = &[
        ("bytes", any_bytes),
        ("letters", letters),
        ("words", words),
        ("changed bytes", changed_bytes),
        ("changed lines", changed_lines),
    ];
    let mut rng = Rng::new(seed);
    (0..count).map(move |number| {
        let (kind, make) = KINDS[number % KINDS.len()];
        SheetCase::new(format!("{kind}, {number} of seed {seed}"), make(&mut rng))
    })
}

/// Any bytes.
fn any_bytes(rng: &mut Rng) -> Vec<u8> {
    let some = rng.below(300);
    let length = *rng.pick(&[0, 1, 2, some, some, some, some, MAX_BYTES, MAX_BYTES + 1, 20_000]);
    (0..length).map(|_| rng.number() as u8).collect()
}

/// The bytes of sheets, in any order, with LF last.
fn letters(rng: &mut Rng) -> Vec<u8> {
    let length = rng.below(400);
    let mut text: Vec<u8> = (0..length).map(|_| *rng.pick(b"ab01-_ \n\n  ac")).collect();
    text.push(b'\n');
    text
}

/// Lines made of a sheet's words; often behind the header, so that rows are reached.
fn words(rng: &mut Rng) -> Vec<u8> {
    let mut text = String::new();
    if rng.chance(7, 8) {
        text += "name kind start loss rank\n";
    }
    let pieces = [
        "p c 1 1 0\n",
        "q a - - 1\n",
        "r a 0 2 3\n",
        "p",
        "q",
        "r",
        " ",
        " ",
        "c",
        "a",
        "-",
        "0",
        "1",
        "7",
        "\n",
        "\n",
        "\nfrom to colour rec\n",
        "\nfrom to colour rec\n",
        "p q 0 0\n",
        "q p 1 1\n",
        "p p 7 0\n",
        "q r 0 1\n",
        "from to colour rec\n",
        "name kind start loss rank\n",
    ];
    for _ in 0..rng.below(14) {
        text += *rng.pick(&pieces);
    }
    if rng.chance(7, 8) {
        text += "\n";
    }
    text.into_bytes()
}

/// An accepted sheet with one to three bytes changed, dropped or put in.
fn changed_bytes(rng: &mut Rng) -> Vec<u8> {
    let shape = rng.below(100);
    let mut text = random_draft(rng, shape).text();
    for _ in 0..rng.between(1, 3) {
        let place = rng.below(text.len());
        let byte = *rng.pick(b"abcz0189-_ \n +AZ~");
        match rng.below(4) {
            0 => {
                text.remove(place);
            }
            1 => text.insert(place, byte),
            2 => text[place] = byte,
            _ => text[place] ^= 1 << rng.below(8),
        }
    }
    text
}

/// An accepted sheet with lines dropped, doubled, swapped, or a line's fields swapped.
fn changed_lines(rng: &mut Rng) -> Vec<u8> {
    let shape = rng.below(100);
    let mut lines = random_draft(rng, shape).lines();
    for _ in 0..rng.between(1, 2) {
        let (here, there) = (rng.below(lines.len()), rng.below(lines.len()));
        match rng.below(5) {
            0 if lines.len() > 1 => {
                lines.remove(here);
            }
            1 => lines.insert(there, lines[here].clone()),
            2 => lines.swap(here, there),
            3 => lines.truncate(here + 1),
            _ => {
                let mut fields: Vec<&[u8]> = lines[here].split(|&byte| byte == b' ').collect();
                rng.shuffle(&mut fields);
                lines[here] = fields.join(&b' ');
            }
        }
    }
    joined(&lines)
}
