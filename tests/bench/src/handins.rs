//! Hand-in lines of ten sets on typical sheets: reading one against reading the sheet, entering one against
//! reading it and marking its sets, and reading one against the same in plain Rust.

use crate::grid::{micros, ratio, Grid};
use crate::kinds::Kind;
use crate::targets::Target;
use crate::timing::{in_turn, median};
use crate::typical::draft;
use crate::Rounds;
use brute::cases::Rng;
use brute::handin::set_text;
use product::{ReadLineResult, Record};
use std::hint::black_box;

/// How many sheets, and how many sets a line hands in.
const SHEETS: u64 = 60;
const SETS: usize = 10;

/// A name as two numbers, its first byte lowest, as the proved reader has it.
fn key(name: &[u8]) -> Option<[u64; 2]> {
    let allowed = |byte: &u8| matches!(byte, b'a'..=b'z' | b'0'..=b'9' | b'_');
    if name.is_empty() || name.len() > 16 || !name.iter().all(allowed) {
        return None;
    }
    let mut bytes = [0; 16];
    bytes[..name.len()].copy_from_slice(name);
    let half = |at: usize| u64::from_le_bytes(bytes[at..at + 8].try_into().expect("eight bytes"));
    Some([half(0), half(8)])
}

fn set_of(keys: &[[u64; 2]], text: &[u8]) -> Result<u64, u64> {
    if text == b"-" {
        return Ok(0);
    }
    let mut set = 0;
    for name in text.split(|&byte| byte == b'+') {
        let key = key(name).ok_or(5u64)?;
        let bit = 1 << keys.iter().position(|&other| other == key).ok_or(8u64)?;
        if set & bit != 0 {
            return Err(6);
        }
        set |= bit;
    }
    Ok(set)
}

/// The same in plain Rust, after the sheet is read: the keys of its names, then the line.
fn twin(sheet: &[u8], words: &mut [u64], line: &[u8], sets: &mut [u64]) -> Option<ReadLineResult> {
    if product::read(sheet, words).number != 0 {
        return None;
    }
    let rows = sheet.split(|&byte| byte == b'\n').skip(1).take(words[0] as usize);
    let mut keys = [[0; 2]; 64];
    for (place, row) in keys.iter_mut().zip(rows) {
        *place = key(row.split(|&byte| byte == b' ').next()?)?;
    }
    let keys = &keys[..words[0] as usize];
    if !line.iter().all(|byte| (32..=126).contains(byte)) {
        return None;
    }
    let mut fields = line.split(|&byte| byte == b' ');
    let student = std::str::from_utf8(fields.next()?).ok()?.parse().ok()?;
    let name = key(fields.next()?)?;
    let target = keys.iter().position(|&other| other == name)? as u64;
    let lock = u64::from(fields.next()? == b"lock");
    let mut count = 0;
    for field in fields {
        *sets.get_mut(count)? = set_of(keys, field).ok()?;
        count += 1;
    }
    let count = count as u64;
    Some(ReadLineResult {
        number: 0,
        text: 0,
        place: 0,
        withdraws: 0,
        student,
        target,
        lock,
        count,
    })
}

/// A line that hands in ten sets of starting items.
fn line(rng: &mut Rng, kind: &Kind, names: &[String]) -> Vec<u8> {
    let starting = kind.setup.chosen(false);
    let mut text = format!("1017 {} open", names[kind.target]);
    for _ in 0..SETS {
        text += &format!(" {}", set_text(names, rng.number() & starting).expect("names"));
    }
    text.into_bytes()
}

/// Lines on typical sheets.
pub fn lines(rounds: &Rounds, targets: &mut Vec<Target>) -> Grid {
    let header = ["of", "sheet, µs", "line, µs", "entered, µs", "line and marks, µs", "plain, µs"];
    let mut grid = Grid::new("Hand-in lines of ten sets on typical sheets", &header);
    grid.note(
        "The median over sixty typical sheets: `portal_read`; `portal_read_line`; `portal_enter_line`; \
         `portal_read_line` and then `portal_mark_openings` of its sets; and `portal_read` followed by \
         reading the line in plain Rust.",
    );
    let mut rng = Rng::new(7);
    let mut all: [Vec<f64>; 5] = Default::default();
    for seed in 0..SHEETS {
        let kind = Kind::new("typical", draft(seed).text());
        let read = brute::sheet::read(&kind.sheet).expect("a typical sheet is accepted");
        let line = line(&mut rng, &kind, &read.names_in(&kind.sheet));
        let sheet = black_box(&kind.sheet);
        let (mut words, mut sets, mut other) = (kind.words.clone(), [0; SETS], [0; SETS]);
        let mut again = kind.words.clone();
        let mut records = [Record::default(); 2];
        let answer = product::read_line(sheet, &line, &mut sets);
        assert_eq!(Some(answer), twin(sheet, &mut words, &line, &mut other), "the twin");
        assert_eq!(sets, other, "the twin's sets");
        let times = in_turn(
            rounds.points,
            [
                &mut || {
                    black_box(product::read(sheet, &mut words));
                },
                &mut || {
                    black_box(product::read_line(sheet, &line, &mut sets));
                },
                &mut || {
                    black_box(product::enter_line(sheet, &line, &mut records, 0));
                },
                &mut || {
                    let said = product::read_line(sheet, &line, &mut other);
                    black_box(product::mark_openings(&kind.words, said.target, &other));
                },
                &mut || {
                    black_box(twin(sheet, &mut again, &line, &mut [0; SETS]));
                },
            ],
        );
        all.iter_mut().zip(times).for_each(|(list, time)| list.push(time));
    }
    let [reading, line, entered, marked, plain] = all.map(median);
    let mut row = vec!["sixty sheets".to_string()];
    row.extend([reading, line, entered, marked, plain].map(micros));
    grid.row(row);
    for (what, wanted, most, time, against) in [
        ("reading a line of ten sets / reading the sheet", "at most 1.5 times", 1.5, line, reading),
        ("entering a line / reading it and marking", "at most 1.3 times", 1.3, entered, marked),
        ("reading a line, proved / plain", "at most 1.3 times", 1.3, line, plain),
    ] {
        let seen = format!("{} times", ratio(time, against));
        targets.push(Target::measured(what, wanted, seen, time / against <= most));
    }
    grid
}
