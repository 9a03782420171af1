//! Scores by kinds of intruder that were worked out by hand.

use crate::compare::{told, Difference, Subject};
use brute::cases::intruders::intruders;

/// Holds what each call tells to the known answer.
pub fn compare_known_kinds() -> Result<(), Box<Difference>> {
    for case in intruders() {
        let mut setup = vec![0; portal::WORDS];
        assert_eq!(portal::read(&case.case.sheet, &mut setup).number, 0, "{}", case.case.label);
        let proved = portal::kinds(&setup, case.target, &case.kinds);
        let subject =
            Subject { label: &case.case.label, sheet: Some(&case.case.sheet), setup: None };
        let named = || format!("kinds({}, {:?})", case.target, case.kinds);
        subject.same(named, proved.numbers(), told(1, case.answer.map(|score| vec![score])))?;
    }
    Ok(())
}
