//! What the papers have to say, by the brute force: `day cells` prints it of a sheet, and `day sheets` writes sheets to
//! try papers on. `tests/command/papers.py` compares.

use crate::twin::Twin;
use brute::cases::bounds::longest_reports;
use brute::cases::random::{at_least, random_draft};
use brute::cases::Rng;
use brute::Calls;
use std::path::Path;

const SEED: u64 = 20_261_118;
const RANDOM: usize = 40;

/// The report, and behind empty lines what to harden, the routes, and with a kind for each item who gets in.
pub fn print(sheet: &str, kinds: Option<&str>) -> Result<(), String> {
    let text = std::fs::read(sheet).map_err(|error| format!("{sheet}: {error}"))?;
    let read = brute::sheet::read(&text).map_err(|no| format!("{sheet}: {}", no.number))?;
    let report = String::from_utf8_lossy(&brute::report::report(&text)).into_owned();
    let twin = Twin { names: read.names_in(&text), calls: Calls::new(&read.setup), text };
    let targets = twin.accounts();
    print!("{report}\n{}\n{}", twin.harden(&targets), twin.routes(&targets));
    if let Some(kinds) = kinds {
        let kinds: Vec<u8> = kinds.split(',').map(|kind| kind.parse().unwrap_or(255)).collect();
        print!("\n{}", twin.kinds(&targets, &kinds));
    }
    Ok(())
}

/// Random sheets, one with lists of 3,432 and 3,003 sets, and the largest ones.
pub fn sheets(folder: &str) -> Result<(), String> {
    let mut rng = Rng::new(SEED);
    let mut all: Vec<(String, Vec<u8>)> = (0..RANDOM)
        .map(|number| (format!("random{number:02}"), random_draft(&mut rng, number).text()))
        .collect();
    all.push(("seven".to_string(), at_least(7, 14).text()));
    let largest = longest_reports().into_iter().enumerate();
    all.extend(largest.map(|(number, case)| (format!("largest{number}"), case.sheet)));
    for (name, text) in all {
        let path = Path::new(folder).join(format!("{name}.sheet"));
        std::fs::write(&path, text).map_err(|error| format!("{}: {error}", path.display()))?;
    }
    Ok(())
}
