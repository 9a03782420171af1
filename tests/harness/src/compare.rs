//! What both programs answer, side by side. The first difference ends the run.

use brute::setup::Setup;
use std::fmt::{self, Debug};

/// An input on which the two programs differ.
pub struct Difference {
    label: String,
    sheet: Option<Vec<u8>>,
    setup: Option<Setup>,
    call: String,
    proved: String,
    brute: String,
}

impl fmt::Display for Difference {
    fn fmt(&self, out: &mut fmt::Formatter<'_>) -> fmt::Result {
        writeln!(out, "DIFFERENCE: {}", self.label)?;
        if let Some(sheet) = &self.sheet {
            writeln!(out, "-- the sheet, {} bytes", sheet.len())?;
            write!(out, "{}", String::from_utf8_lossy(sheet))?;
            if std::str::from_utf8(sheet).is_err() {
                writeln!(out, "\n-- its bytes\n{sheet:?}")?;
            }
        }
        if let Some(setup) = &self.setup {
            write!(out, "-- the setup\n{setup}")?;
        }
        writeln!(out, "-- the call\n{}", self.call)?;
        writeln!(out, "-- the proved code\n{}", self.proved)?;
        write!(out, "-- the brute force\n{}", self.brute)
    }
}

/// What is being compared, for the message where there is a difference.
pub struct Subject<'a> {
    pub label: &'a str,
    pub sheet: Option<&'a [u8]>,
    pub setup: Option<&'a Setup>,
}

impl Subject<'_> {
    /// Both programs' answers to a call.
    pub fn same<T: PartialEq + Debug>(
        &self,
        call: impl FnOnce() -> String,
        proved: T,
        brute: T,
    ) -> Result<(), Box<Difference>> {
        if proved == brute {
            return Ok(());
        }
        Err(Box::new(Difference {
            label: self.label.to_string(),
            sheet: self.sheet.map(<[u8]>::to_vec),
            setup: self.setup.cloned(),
            call: call(),
            proved: format!("{proved:?}"),
            brute: format!("{brute:?}"),
        }))
    }
}

/// A result's numbers: that of the answer, its values, and 0 in the fields that it has no value for.
pub fn told(fields: usize, expected: Result<Vec<u64>, u8>) -> Vec<u64> {
    let (number, values) = match expected {
        Ok(values) => (0, values),
        Err(number) => (u64::from(number), Vec::new()),
    };
    let mut numbers = vec![number];
    numbers.extend(values);
    numbers.resize(1 + fields, 0);
    numbers
}
