//! Tests of the brute force itself: against the documents' examples, against slower ways to
//! say the same, and against what the makers of cases know.

mod bags;
mod cuts;
mod examples;
mod forecasts;
mod generators;
mod graphs;
mod handins;
mod intruders;
mod living;
mod pools;
mod questions;
mod quick;
mod reading;
mod registers;
mod reports;
mod walks;

use brute::sheet::read;
use brute::{Calls, Sheet};

/// The reading of a sheet that must be accepted.
fn accepted(text: impl AsRef<[u8]>) -> Sheet {
    let text = text.as_ref();
    let shown = String::from_utf8_lossy(text);
    read(text).unwrap_or_else(|refusal| panic!("{refusal:?} of\n{shown}"))
}

/// The calls on an accepted sheet's setup.
fn calls(text: impl AsRef<[u8]>) -> Calls {
    Calls::new(&accepted(text).setup)
}

/// The set of some items.
fn set(items: &[u64]) -> u64 {
    items.iter().fold(0, |set, &item| set | 1 << item)
}
