//! Opening lists shown one set at a time while the drawing changes: between two calls edges are added
//! and removed by the calls that do so, and items held, and each call is compared with the brute force
//! on the setup of that moment.

use crate::compare::{told, Difference, Subject};
use crate::living::Life;
use brute::calls::Calls;
use brute::cases::living::{random_edit, redrawing};
use brute::cases::random::{large_draft, random_draft};
use brute::cases::walks::next_cases;
use brute::cases::Rng;
use brute::next::comes_after;

type Outcome = Result<(), Box<Difference>>;

/// The most sets that one walk shows; it would end by itself, after 2^14 of them at the latest.
const STEPS: usize = 24;
/// Every 50th walk is over a setup at the bounds.
const LARGE_EVERY: usize = 50;

/// What was walked: the sets shown, the calls whose last set had left the list, and the accepted calls
/// that changed the setup between two of them.
#[derive(Debug, Default)]
pub struct Walked {
    pub shown: usize,
    pub left: usize,
    pub changed: usize,
}

/// The answers that were worked out by hand.
pub fn compare_next_cases() -> Outcome {
    for case in next_cases() {
        let mut words = vec![0; portal::WORDS];
        let label = &case.case.label;
        assert_eq!(portal::read(&case.case.sheet, &mut words).number, 0, "{label} is read");
        let subject = Subject { label, sheet: Some(&case.case.sheet), setup: None };
        for (last, answer) in case.shown {
            let proved = portal::next_opening(&words, case.target, last);
            let named = || format!("next_opening({}, {last:#x})", case.target);
            subject.same(named, proved.numbers(), told(2, answer.map(values)))?;
        }
    }
    Ok(())
}

/// The values of an answer: 1 and the set, or 0 for "no more".
pub fn values(answer: Option<u64>) -> Vec<u64> {
    answer.map_or(vec![0], |set| vec![1, set])
}

/// Walks over random setups, with up to 1, 4 or 16 changes before each call.
pub fn compare_walks(rng: &mut Rng, count: usize) -> Result<Walked, Box<Difference>> {
    let mut walked = Walked::default();
    for number in 0..count {
        let label = format!("a walk while the drawing changes, {number}");
        let large = number % LARGE_EVERY == LARGE_EVERY - 1;
        let draft =
            if large { large_draft(rng, number / LARGE_EVERY) } else { random_draft(rng, number) };
        let life = Life::read(&draft.text(), &[]);
        let changes = [1, 4, 16][number % 3];
        let target = rng.below(life.setup.count as usize) as u64;
        walk(&label, life, target, changes, rng, &mut walked)?;
    }
    Ok(walked)
}

/// One walk from the empty set on. What is shown rises, so that nothing is shown twice.
fn walk(
    label: &str,
    mut life: Life,
    target: u64,
    changes: usize,
    rng: &mut Rng,
    walked: &mut Walked,
) -> Outcome {
    let mut last = 0;
    for _ in 0..STEPS {
        for _ in 0..rng.below(changes + 1) {
            // One in eight is any call, of which some take items in and out.
            let any = rng.chance(1, 8);
            let edit =
                if any { random_edit(rng, &life.setup) } else { redrawing(rng, &life.setup) };
            walked.changed += usize::from(life.step(label, edit)? == 0);
        }
        let proved = portal::next_opening(&life.words, target, last);
        let calls = Calls::new(&life.setup);
        let expected = calls.next_opening(target, last);
        let subject = Subject { label, sheet: None, setup: Some(&life.setup) };
        let named = || format!("next_opening({target}, {last:#x})");
        subject.same(named, proved.numbers(), told(2, expected.map(values)))?;
        let listed = calls.opening_list(target).is_ok_and(|list| list.contains(&last));
        walked.left += usize::from(last != 0 && !listed);
        if proved.more == 0 {
            return Ok(());
        }
        let named = || format!("next_opening({target}, {last:#x}), does it rise?");
        subject.same(named, comes_after(proved.set, last), true)?;
        walked.shown += 1;
        last = proved.set;
    }
    Ok(())
}
