//! Closures whose number of passes is known by the way their sheets were made; and the way in and the
//! quick yes from their sets to every item, beside the brute force's.

use crate::compare::{told, Difference, Subject};
use brute::cases::chains::{known_passes, PassesCase};
use brute::setup::PLACES;
use brute::{sheet, Calls, Way};

type Outcome = Result<(), Box<Difference>>;

/// Holds the number of passes that each call tells to the known one, and compares the way in and the
/// quick yes to every item.
pub fn compare_known_passes() -> Outcome {
    for case in known_passes() {
        let mut setup = vec![0; portal::WORDS];
        assert_eq!(portal::read(&case.sheet, &mut setup).number, 0, "{} is read", case.label);
        let closure = portal::closure(&setup, case.set);
        let subject = Subject { label: case.label, sheet: Some(&case.sheet), setup: None };
        let named = || format!("closure({:#x}), number and passes", case.set);
        subject.same(named, (closure.number, closure.passes), (0, case.passes as u64))?;
        let calls = Calls::new(&sheet::setup_of(&case.sheet));
        for target in 0..calls.setup().count {
            compare_target(&subject, &case, &setup, &calls, target)?;
        }
    }
    Ok(())
}

/// The quick yes and the way in to an item, from the case's set.
fn compare_target(
    subject: &Subject,
    case: &PassesCase,
    setup: &[u64],
    calls: &Calls,
    target: u64,
) -> Outcome {
    let set = case.set;
    let expected = calls.opens(set, target).map(|(yes, held)| vec![u64::from(yes), held]);
    let quick = portal::opens(setup, target, set);
    let named = || format!("opens({target}, {set:#x})");
    subject.same(named, quick.numbers(), told(2, expected))?;
    let (mut items, mut colours) = ([0; PLACES], [0; PLACES]);
    let way = portal::way_in(setup, target, set, &mut items, &mut colours);
    let (mut items_brute, mut colours_brute) = ([0; PLACES], [0; PLACES]);
    let expected = calls.way_in(set, target, &mut items_brute, &mut colours_brute);
    let expected = expected.map(|way| match way {
        Way::Steps(steps) => vec![1, steps as u64],
        Way::Shut => vec![0],
    });
    let named = || format!("way_in({target}, {set:#x})");
    let brute = (told(2, expected), items_brute, colours_brute);
    subject.same(named, (way.numbers(), items, colours), brute)
}
