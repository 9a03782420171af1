//! Two sheets pooled: the answer and every byte of the buffer, with room, without, and with some to
//! spare; and of a pooled sheet that it is accepted, and opens by name what either sheet opened.

use crate::compare::{Difference, Subject};
use brute::cases::pools::{pools, random_pool, PoolCase};
use brute::cases::Rng;
use brute::graph::closure;
use brute::pool::{pool, pooled};
use brute::sheet;
use portal::POOL_BYTES;

type Outcome = Result<(), Box<Difference>>;

/// How many pairs gave a pooled sheet, and how many 22 and 23.
#[derive(Debug, Default)]
pub struct Pools {
    pub pooled: usize,
    pub disagree: usize,
    pub beyond: usize,
}

/// The pairs by name.
pub fn compare_pool_cases(rng: &mut Rng) -> Outcome {
    for case in pools() {
        compare_pool(&case, rng)?;
    }
    Ok(())
}

/// Random pairs.
pub fn compare_pools(rng: &mut Rng, count: usize) -> Result<Pools, Box<Difference>> {
    let mut seen = Pools::default();
    for number in 0..count {
        let case = random_pool(rng, number);
        match compare_pool(&case, rng)? {
            0 => seen.pooled += 1,
            22 => seen.disagree += 1,
            23 => seen.beyond += 1,
            other => panic!("{}: {other} for two accepted sheets", case.label),
        }
    }
    Ok(seen)
}

/// One pair, in buffers of several lengths. The number for a buffer with room is handed back.
fn compare_pool(case: &PoolCase, rng: &mut Rng) -> Result<u64, Box<Difference>> {
    let subject = Subject { label: &case.label, sheet: Some(&case.second), setup: None };
    let expected = pooled(&case.first, &case.second);
    let number = expected.as_ref().map_or_else(|no| no.number, |_| 0);
    if let Some(told) = case.number {
        subject.same(|| "the case's own word".to_string(), number, told)?;
    }
    // A refused pair is tried with buffers of a sheet's length too.
    let length = expected.as_ref().map_or(case.first.len(), Vec::len);
    if expected.is_ok() {
        subject.same(
            || "a pooled sheet that is too long".to_string(),
            length > POOL_BYTES,
            false,
        )?;
    }
    for places in [0, length.saturating_sub(1), length, length + 1, POOL_BYTES, 20_000] {
        let entry: Vec<u8> = (0..places).map(|_| rng.number() as u8).collect();
        let (mut proved, mut plain) = (entry.clone(), entry);
        let answer = portal::pool(&case.first, &case.second, &mut proved);
        let told = pool(&case.first, &case.second, &mut plain);
        subject.same(|| format!("pool, {places} places"), answer.numbers(), told.numbers())?;
        subject.same(|| format!("pool, the buffer of {places}"), &proved, &plain)?;
        if answer.number == 0 {
            let read = portal::read(&proved[..answer.length as usize], &mut [0; portal::WORDS]);
            subject.same(|| "the reading of a pooled sheet".to_string(), read.number, 0)?;
        }
    }
    if let Ok(text) = expected {
        opens_as_before(&subject, case, &text, rng)?;
    }
    Ok(number)
}

/// What a set of either sheet opens, the pooled sheet opens too, items taken by name.
fn opens_as_before(subject: &Subject, case: &PoolCase, text: &[u8], rng: &mut Rng) -> Outcome {
    let whole = sheet::read(text).expect("a pooled sheet is accepted");
    let names = whole.names_in(text);
    for part in [&case.first, &case.second] {
        let read = sheet::read(part).expect("a sheet that was pooled is accepted");
        let own = read.names_in(part);
        let to_whole = |set: u64| {
            let place =
                |name: &String| names.iter().position(|x| x == name).expect("an item stays");
            let held = own.iter().enumerate().filter(|(item, _)| set >> item & 1 == 1);
            held.map(|(_, name)| 1u64 << place(name)).sum::<u64>()
        };
        let set = rng.number() & (u64::MAX >> (64 - read.setup.count));
        let opened = to_whole(closure(&read.setup, set));
        let there = closure(&whole.setup, to_whole(set));
        let named = || format!("what {set:#x} opened, opened in the pooled sheet");
        subject.same(named, opened & !there, 0)?;
    }
    Ok(())
}
