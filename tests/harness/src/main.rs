//! Compares the proved code, linked as a static library, with the brute force.
//!
//! `harness gate` compares a fixed part. `harness fuzz SEED SECONDS` goes on for as long as it is
//! told. `harness lists` makes all lists of up to 3 calls that change a setup on all graphs of two items
//! and two colours. `harness handins` compares the gate's hand-in lines alone. The first difference is
//! printed with its input, and the exit status is 1.

mod bags;
mod compare;
mod handins;
mod intruders;
mod living;
mod long_lists;
mod passes;
mod pools;
mod program;
mod register;
mod runs;
mod saves;
mod setups;
mod sheets;
mod walks;
mod words;

use program::Program;
use runs::Run;
use std::path::Path;
use std::process::ExitCode;
use std::time::{Duration, Instant};

/// The gate's seed.
const SEED: u64 = 20_261_115;

fn main() -> ExitCode {
    let arguments: Vec<String> = std::env::args().skip(1).collect();
    let number = |place: usize| arguments.get(place).and_then(|word| word.parse::<u64>().ok());
    match (arguments.first().map(String::as_str), number(1), number(2)) {
        (Some("gate"), None, None) => run("gate", SEED, |run| run.gate(SEED)),
        (Some("fuzz"), Some(seed), Some(seconds)) => {
            run("fuzz", seed, |run| run.fuzz(Duration::from_secs(seconds)))
        }
        (Some("lists"), None, None) => run("lists", SEED, Run::lists),
        (Some("handins"), None, None) => run("handins", SEED, Run::handins),
        _ => {
            eprintln!("usage: harness gate | fuzz SEED SECONDS | lists | handins");
            ExitCode::from(2)
        }
    }
}

fn run(
    name: &str,
    seed: u64,
    compare: impl FnOnce(&mut Run) -> Result<(), Box<compare::Difference>>,
) -> ExitCode {
    let report = Path::new(env!("CARGO_MANIFEST_DIR")).join("../../crates/report/out/report");
    let start = Instant::now();
    let mut run = Run::new(seed, Program::at(&report));
    let outcome = compare(&mut run);
    let seconds = start.elapsed().as_secs();
    println!("harness {name}: seed {seed}, {seconds} seconds: {}", run.counts);
    if let Err(difference) = outcome {
        println!("{difference}");
        return ExitCode::FAILURE;
    }
    println!("harness {name}: no difference");
    ExitCode::SUCCESS
}
