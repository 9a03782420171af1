//! Hand-ins by name: sets and lines read, sets written, lines taken to the register. Every answer, every
//! place of it, and every lent place is compared, with exact room, one place less, none, and some to spare.

use crate::compare::{Difference, Subject};
use crate::register::lent;
use crate::saves::longest;
use brute::cases::handins::{bounds, damaged, line, Ends};
use brute::cases::registers;
use brute::cases::{damaged::damaged_sheet, random::random_draft, Rng};
use brute::handin::{self, No};
use brute::register::{self, Afternoon, Call, Record};
use brute::{sheet, Calls};

type Outcome = Result<(), Box<Difference>>;

/// The fewest of the gate's lines, by what they came to: each number from each field.
pub const ENDS: [(&str, usize); 22] = [
    ("open", 2_000),
    ("lock", 2_000),
    ("no sets", 300),
    ("withdrawn", 500),
    ("2 of 0", 300),
    ("4 of 1", 100),
    ("4 of 2", 100),
    ("4 of 3", 100),
    ("4 of 4", 300),
    ("5 of 1", 300),
    ("5 of 2", 100),
    ("8 of 2", 100),
    ("5 of 3", 100),
    ("5 of 4", 500),
    ("8 of 4", 200),
    ("6 of 4", 100),
    ("7 of 0", 1),
    ("15", 3_000),
    ("a refused sheet", 100),
    ("entered", 1_000),
    ("26", 100),
    ("27", 100),
];

/// An accepted sheet, its names, and the brute force's calls on it.
pub struct Lab {
    text: Vec<u8>,
    names: Vec<String>,
    calls: Calls,
}

impl Lab {
    pub fn of(text: Vec<u8>) -> Option<Lab> {
        let read = sheet::read(&text).ok()?;
        let names = read.names_in(&text);
        Some(Lab { text, names, calls: Calls::new(&read.setup) })
    }

    fn subject<'a>(&'a self, label: &'a str) -> Subject<'a> {
        Subject { label, sheet: Some(&self.text), setup: None }
    }
}

/// What the struct of a line should have, field by field.
fn told(said: &Result<Call, No>, places: usize) -> Vec<u64> {
    match said {
        Err(No { number, field }) => vec![u64::from(*number), 2, *field, 0, 0, 0, 0, 0],
        Ok(Call::Withdraw(student)) => vec![0, 0, 0, 1, *student, 0, 0, 0],
        Ok(Call::HandIn(x)) if x.sets.len() > places => vec![15, 0, 0, 0, 0, 0, 0, 0],
        Ok(Call::HandIn(x)) => {
            vec![0, 0, 0, 0, x.student, x.target, u64::from(x.lock), x.sets.len() as u64]
        }
    }
}

fn sets_of(said: &Result<Call, No>) -> &[u64] {
    match said {
        Ok(Call::HandIn(attempt)) => &attempt.sets,
        _ => &[],
    }
}

/// One line, in lists of several lengths.
fn compare_line(lab: &Lab, line: &[u8], rng: &mut Rng, ends: &mut Ends) -> Outcome {
    let subject = lab.subject("a hand-in line");
    let said = handin::read_line(&lab.names, line);
    ends.count(&said);
    let sets = sets_of(&said);
    let named = || format!("{:?}", String::from_utf8_lossy(line));
    for places in [sets.len(), sets.len().saturating_sub(1), 0, sets.len() + 1 + rng.below(4)] {
        let before: Vec<u64> = (0..places as u64).map(|at| !at).collect();
        let mut list = before.clone();
        let answer = portal::read_line(&lab.text, line, &mut list).numbers();
        subject.same(named, &answer, &told(&said, places))?;
        let mut expected = before;
        if answer[0] == 0 {
            expected[..sets.len()].copy_from_slice(sets);
        } else if answer[0] == 15 {
            ends.add("15");
        }
        subject.same(|| format!("the list of {}", named()), list, expected)?;
    }
    Ok(())
}

/// A text as a set, and a set as a text, in buffers of several lengths.
fn compare_set(lab: &Lab, text: &[u8], set: u64, rng: &mut Rng) -> Outcome {
    let subject = lab.subject("a set by its names");
    let expected = match handin::read_set(&lab.names, text) {
        Ok(set) => vec![0, 0, 0, set],
        Err(number) => vec![u64::from(number), 2, 0, 0],
    };
    let answer = portal::read_set(&lab.text, text).numbers();
    subject.same(|| format!("{:?}", String::from_utf8_lossy(text)), answer, expected)?;
    let written = handin::set_text(&lab.names, set);
    let size = written.as_ref().map_or(3, String::len);
    for places in [size, size - 1, 0, size + rng.below(9), portal::SET_BYTES] {
        let before: Vec<u8> = (0..places).map(|at| b'!' + (at % 90) as u8).collect();
        let mut buffer = before.clone();
        let answer = portal::write_set(&lab.text, set, &mut buffer).numbers();
        let mut expected = before;
        let numbers = match &written {
            None => vec![14, 0],
            Some(text) if text.len() > places => vec![15, 0],
            Some(text) => {
                expected[..text.len()].copy_from_slice(text.as_bytes());
                vec![0, text.len() as u64]
            }
        };
        subject.same(|| format!("the set {set:x} in {places}"), answer, numbers)?;
        subject.same(|| format!("the buffer of the set {set:x}"), &buffer, &expected)?;
    }
    let Some(text) = written else { return Ok(()) };
    let again = portal::read_set(&lab.text, text.as_bytes()).numbers();
    subject.same(|| format!("{text} read back"), again, vec![0, 0, 0, set])
}

/// One line on any slice and count.
fn compare_entered(lab: &Lab, line: &[u8], rng: &mut Rng, ends: &mut Ends) -> Outcome {
    let said = handin::read_line(&lab.names, line);
    let places = rng.below(6);
    let slice = match &said {
        Ok(call) => registers::slice_for(rng, &lab.calls, places, call),
        Err(_) => registers::slice(rng, &lab.calls, places),
    };
    let some = rng.below(places + 1);
    let used = *rng.pick(&[places, places, 0, places + 1, usize::MAX, some, some]);
    let (mut proved, mut brute) = (lent(&slice), slice.clone());
    let answer = portal::enter_line(&lab.text, line, &mut proved, used);
    let expected = match &said {
        _ if used > places => (25, used as u64),
        Err(no) => (u64::from(no.number), used as u64),
        Ok(Call::HandIn(attempt)) => {
            register::hand_in(&lab.calls, &mut brute, used as u64, attempt)
        }
        Ok(Call::Withdraw(student)) => register::withdraw(&mut brute, used as u64, *student),
    };
    ends.add(match expected.0 {
        0 => "entered",
        26 => "26",
        27 => "27",
        _ => "not entered",
    });
    let named = || format!("{:?} on {used} of {slice:x?}", String::from_utf8_lossy(line));
    let subject = lab.subject("a line taken to the register");
    let found = ((answer.number, answer.used as u64), proved);
    subject.same(named, found, (expected, lent(&brute)))
}

/// Lines one after the other from an empty register: a refused one counts for nothing.
fn compare_lines(lab: &Lab, rng: &mut Rng, many: usize) -> Outcome {
    let places = rng.below(7);
    let slice: Vec<Record> = registers::slice(rng, &lab.calls, places);
    let (mut proved, mut used) = (lent(&slice), 0);
    let mut brute = Afternoon::new(&lab.calls, slice);
    for before in 0..many {
        let mut text = line(rng, &lab.calls, &lab.names);
        if rng.chance(1, 4) {
            text = damaged(rng, &lab.names, &text);
        }
        let answer = portal::enter_line(&lab.text, &text, &mut proved, used);
        let expected = match handin::read_line(&lab.names, &text) {
            Ok(call) => brute.make(call),
            Err(no) => (u64::from(no.number), used),
        };
        let named = || format!("line {before}: {:?}", String::from_utf8_lossy(&text));
        let found = ((answer.number, answer.used), &proved);
        lab.subject("an afternoon of lines").same(
            named,
            found,
            (expected, &lent(brute.slice())),
        )?;
        used = answer.used;
    }
    Ok(())
}

/// A refused sheet refuses whatever is handed over beside it.
fn compare_refused(text: &[u8], line: &[u8], ends: &mut Ends) -> Outcome {
    let Err(refused) = sheet::read(text) else { return Ok(()) };
    ends.add("a refused sheet");
    let subject = Subject { label: "by name, a refused sheet", sheet: Some(text), setup: None };
    let head = vec![u64::from(refused.number), 1, refused.line];
    let named = || "a set, the names, a line and an entered line".to_string();
    let (mut list, mut buffer) = ([7; 3], [7; 3]);
    let mut records = lent(&[Record::default(); 2]);
    let entered = portal::enter_line(text, line, &mut records, 1);
    let found = vec![
        portal::read_set(text, line).numbers(),
        portal::write_set(text, 1, &mut buffer).numbers(),
        portal::read_line(text, line, &mut list).numbers(),
        vec![entered.number, entered.used as u64],
    ];
    let zeros = |many: usize| vec![0; many];
    let expected = vec![
        [head.clone(), zeros(1)].concat(),
        vec![head[0], 0],
        [head.clone(), zeros(5)].concat(),
        vec![head[0], 1],
    ];
    subject.same(named, found, expected)?;
    let untouched = (list == [7; 3], buffer == [7; 3], records == lent(&[Record::default(); 2]));
    subject.same(|| "what was lent".to_string(), untouched, (true, true, true))
}

/// Random sheets with lines on each; `lines` of them in all.
pub fn compare_handins(rng: &mut Rng, lines: usize, ends: &mut Ends) -> Outcome {
    const EACH: usize = 40;
    for number in 0..lines.div_ceil(EACH) {
        let Some(lab) = Lab::of(random_draft(rng, number).text()) else { continue };
        for _ in 0..EACH {
            let mut text = line(rng, &lab.calls, &lab.names);
            for _ in 0..*rng.pick(&[0, 0, 1, 1, 1, 2]) {
                text = damaged(rng, &lab.names, &text);
            }
            compare_line(&lab, &text, rng, ends)?;
            compare_entered(&lab, &text, rng, ends)?;
            let set = rng.number() & rng.number() >> rng.below(64);
            let field = text.split(|&byte| byte == b' ').last().unwrap_or(&[]).to_vec();
            compare_set(&lab, &field, set, rng)?;
        }
        compare_lines(&lab, rng, 20)?;
        let bad = damaged_sheet(rng, 1 + (number % 11) as u8).sheet;
        compare_refused(&bad, b"7 a open -", ends)?;
    }
    Ok(())
}

/// The largest sheet: 64 items with names of 16 bytes, every item by its name, every bound of a line.
pub fn compare_handin_bounds(rng: &mut Rng, ends: &mut Ends) -> Outcome {
    let lab = Lab::of(longest()).expect("the longest sheet is accepted");
    for text in bounds(&lab.names) {
        compare_line(&lab, &text, rng, ends)?;
        compare_entered(&lab, &text, rng, ends)?;
    }
    for item in 0..64 {
        let name = lab.names[item].clone().into_bytes();
        compare_set(&lab, &name, 1 << item, rng)?;
        let text = format!("7 {} lock {}", lab.names[item], lab.names[63 - item]).into_bytes();
        compare_line(&lab, &text, rng, ends)?;
    }
    compare_set(&lab, lab.names.join("+").as_bytes(), u64::MAX, rng)
}
