//! The inputs on which the proved code is compared with this crate. Every generator takes its
//! seed or its index from the caller, so the same numbers give the same cases.

pub mod bags;
pub mod bounds;
pub mod buffers;
pub mod by_hand;
pub mod chains;
pub mod cuts;
pub mod damaged;
pub mod draft;
pub mod forecasts;
pub mod handins;
pub mod intruders;
pub mod living;
pub mod noise;
pub mod pools;
pub mod probes;
pub mod random;
pub mod readings;
pub mod registers;
pub mod rng;
pub mod setups;
pub mod tiny;
pub mod walks;

use crate::setup::Setup;
use crate::sheet::Refusal;

pub use rng::Rng;

/// A text to be read as a sheet.
#[derive(Clone, Debug)]
pub struct SheetCase {
    /// What the case is about.
    pub label: String,
    /// The bytes.
    pub sheet: Vec<u8>,
    /// What the one who made the case knows of the reading, without having read it.
    pub told: Told,
}

/// What is known of a sheet's reading by the way it was made.
#[derive(Clone, Copy, Debug, PartialEq, Eq)]
pub enum Told {
    /// Nothing.
    Nothing,
    /// It is accepted.
    Accepted,
    /// It is refused so.
    Refused(Refusal),
}

/// A setup to be asked questions.
#[derive(Clone, Debug)]
pub struct SetupCase {
    /// What the case is about.
    pub label: String,
    /// Well formed or not.
    pub setup: Setup,
}

impl SheetCase {
    /// A case of which nothing is known.
    pub fn new(label: impl Into<String>, sheet: Vec<u8>) -> SheetCase {
        SheetCase { label: label.into(), sheet, told: Told::Nothing }
    }

    /// A case that must be accepted.
    pub fn accepted(label: impl Into<String>, sheet: Vec<u8>) -> SheetCase {
        SheetCase { label: label.into(), sheet, told: Told::Accepted }
    }

    /// A case that must be refused with this number and line.
    pub fn refused(label: impl Into<String>, sheet: Vec<u8>, number: u8, line: u64) -> SheetCase {
        let told = Told::Refused(Refusal { number, line });
        SheetCase { label: label.into(), sheet, told }
    }
}
