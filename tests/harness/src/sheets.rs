//! A text: its reading, its items' names, the portal's numbers, all calls on the setup that it
//! yields, and the whole report.

use crate::compare::{Difference, Subject};
use crate::program::Program;
use crate::setups::{compare_setup, Depth};
use crate::words::words_of;
use brute::cases::by_hand::{by_hand, Answer, NAMES};
use brute::cases::registers::Met;
use brute::cases::{probes, Rng, SheetCase, Told};
use brute::report::portal_code;
use brute::setup::Setup;
use brute::sheet::{self, Refusal, Sheet};
use brute::Calls;
use portal::{HELD, WORDS};

type Outcome = Result<(), Box<Difference>>;

/// Compares all that is asked of a text; the report too, where `program` is given.
pub fn compare_sheet(
    case: &SheetCase,
    rng: &mut Rng,
    depth: Depth,
    program: Option<&Program>,
    met: &mut Met,
) -> Outcome {
    let read = sheet::read(&case.sheet);
    let subject = Subject { label: &case.label, sheet: Some(&case.sheet), setup: None };
    let outcome = read.as_ref().map(|_| ()).map_err(|refusal| *refusal);
    match case.told {
        Told::Nothing => {}
        Told::Accepted => subject.same(|| "the case's own word".to_string(), Ok(()), outcome)?,
        Told::Refused(refusal) => {
            subject.same(|| "the case's own word".to_string(), Err(refusal), outcome)?;
        }
    }
    reading(&subject, rng, &case.sheet, &read)?;
    names(&subject, rng, &case.sheet, &read)?;
    portal(&subject, rng, &case.sheet, &read, depth)?;
    if let Some(program) = program {
        compare_report(case, program)?;
    }
    if let Ok(sheet) = &read {
        compare_setup(&case.label, Some(&case.sheet), &sheet.setup, rng, depth, met)?;
    }
    Ok(())
}

/// The answers that were worked out by hand: number and line, or how many items, edges and recovery edges
/// the setup has; and names. The brute force and the product are both held to them.
pub fn compare_by_hand() -> Result<usize, Box<Difference>> {
    let cases = by_hand();
    for case in &cases {
        let text = &case.case.sheet;
        let subject = Subject { label: &case.case.label, sheet: Some(text), setup: None };
        let mut words = vec![0; WORDS];
        let read = portal::read(text, &mut words);
        let edges = |first: usize| {
            words[first..first + 512].iter().map(|row| row.count_ones() as usize).sum()
        };
        let told = match read.number {
            0 => Answer::Yes(words[0], edges(257), edges(769)),
            number => Answer::No(number as u8, read.line),
        };
        subject.same(|| "read, as worked out by hand".to_string(), told, case.answer)?;
    }
    for &(text, item, name) in NAMES {
        let subject =
            Subject { label: "a name, as worked out by hand", sheet: Some(text), setup: None };
        subject.same(|| format!("name({item})"), portal::name(text, item).of(text), name)?;
    }
    Ok(cases.len())
}

/// Compares what the program `report` prints.
pub fn compare_report(case: &SheetCase, program: &Program) -> Outcome {
    let subject = Subject { label: &case.label, sheet: Some(&case.sheet), setup: None };
    let printed = program.report(&case.sheet);
    let expected = brute::report::report(&case.sheet);
    subject.same(|| "the program report".to_string(), text(&printed), text(&expected))
}

fn text(bytes: &[u8]) -> String {
    String::from_utf8_lossy(bytes).into_owned()
}

/// The number and the line, and how buffers with room and without end.
fn reading(
    subject: &Subject,
    rng: &mut Rng,
    sheet: &[u8],
    read: &Result<Sheet, Refusal>,
) -> Outcome {
    let (number, line, setup) = match read {
        Ok(sheet) => (0, 0, sheet.setup.clone()),
        Err(refusal) => (u64::from(refusal.number), refusal.line, Setup::empty()),
    };
    let words = words_of(&setup).expect("a sheet's setup can be said in words");
    let other = *rng.pick(&[0, 1, HELD, WORDS - 1, WORDS, WORDS + 9]);
    for length in [WORDS + 1, other] {
        let lent = probes::lent_sets(rng, length);
        let (mut proved, mut brute) = (lent.clone(), lent);
        let numbers = portal::read(sheet, &mut proved).numbers();
        let number = match brute.get_mut(..WORDS) {
            Some(front) => {
                front.copy_from_slice(&words);
                number
            }
            None if number == 0 => 15,
            None => number,
        };
        let call = || format!("read, with {length} words");
        subject.same(call, (numbers, proved), (vec![number, line], brute))?;
    }
    Ok(())
}

/// Where each name stands, and its bytes.
fn names(subject: &Subject, rng: &mut Rng, sheet: &[u8], read: &Result<Sheet, Refusal>) -> Outcome {
    let count = read.as_ref().map_or(0, |sheet| sheet.setup.count);
    let mut items = probes::item_numbers(count);
    rng.shuffle(&mut items);
    for &item in items.iter().take(6) {
        let (number, range) = match read {
            Ok(read) if item < count => (0, read.names[item as usize].clone()),
            Ok(_) => (13, 0..0),
            Err(refusal) => (u64::from(refusal.number), 0..0),
        };
        let expected = vec![number, range.start as u64, range.len() as u64];
        let part = portal::name(sheet, item);
        let call = || format!("name({item})");
        subject.same(call, (part.numbers(), part.of(sheet)), (expected, &sheet[range]))?;
    }
    Ok(())
}

/// The portal's score and risk, of items that are there and not.
fn portal(
    subject: &Subject,
    rng: &mut Rng,
    sheet: &[u8],
    read: &Result<Sheet, Refusal>,
    depth: Depth,
) -> Outcome {
    let count = read.as_ref().map_or(0, |sheet| sheet.setup.count);
    let mut items = probes::item_numbers(count);
    rng.shuffle(&mut items);
    items.truncate(depth.items);
    let calls = read.as_ref().map(|sheet| Calls::new(&sheet.setup));
    for item in items {
        let (score, risk) = match &calls {
            Ok(calls) => (calls.score(item), calls.risk(item)),
            Err(refusal) => (Err(refusal.number), Err(refusal.number)),
        };
        let call = || format!("score({item})");
        subject.same(call, portal::score(sheet, item), portal_code(score))?;
        let call = || format!("risk({item})");
        subject.same(call, portal::risk(sheet, item), portal_code(risk))?;
    }
    Ok(())
}
