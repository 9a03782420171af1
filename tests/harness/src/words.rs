//! A setup as the plain numbers that the proved calls take and give.

use brute::setup::{Place, Setup, ACCOUNT, COLOURS, CREDENTIAL, PLACES};
use portal::{BLANK, HELD, OPENED, WORDS};

/// The words of a setup; `None` for one that they can't say: a value has the number that stands for a
/// blank. Another kind than the two is a number above 1.
pub fn words_of(setup: &Setup) -> Option<Vec<u64>> {
    let mut words = vec![setup.count];
    for place in &setup.places {
        let kind = match place.kind {
            CREDENTIAL => 0,
            ACCOUNT => 1,
            other => 2 + u64::from(other),
        };
        if place.start == Some(BLANK) || place.loss == Some(BLANK) {
            return None;
        }
        let value = |value: Option<u64>| value.unwrap_or(BLANK);
        words.extend([kind, value(place.start), value(place.loss), place.rank]);
    }
    words.extend(setup.places.iter().flat_map(|place| place.rows));
    words.extend(setup.places.iter().flat_map(|place| place.recovery));
    words.extend([setup.held, setup.opened]);
    Some(words)
}

/// The setup that a buffer says. One that is too short, or has a kind above 1 at any place, is no setup:
/// it stands for the one that a refused sheet gives.
pub fn setup_said(words: &[u64]) -> Setup {
    let strange = |place: usize| words[1 + 4 * place] > 1;
    if words.len() < WORDS || (0..PLACES).any(strange) {
        return Setup::empty();
    }
    let value = |place: usize| Some(words[place]).filter(|&value| value != BLANK);
    let rows =
        |first: usize| -> [u64; COLOURS] { std::array::from_fn(|colour| words[first + colour]) };
    let places = std::array::from_fn(|place| Place {
        kind: if words[1 + 4 * place] == 0 { CREDENTIAL } else { ACCOUNT },
        start: value(2 + 4 * place),
        loss: value(3 + 4 * place),
        rank: words[4 + 4 * place],
        rows: rows(257 + 8 * place),
        recovery: rows(769 + 8 * place),
    });
    Setup { count: words[0], places, held: words[HELD], opened: words[OPENED] }
}
