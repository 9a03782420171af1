//! The program `report` once more, by the brute force: reads a sheet from standard input and
//! prints its report.

use std::io::{self, Read, Write};

fn main() -> io::Result<()> {
    let mut sheet = Vec::new();
    io::stdin().read_to_end(&mut sheet)?;
    io::stdout().write_all(&brute::report::report(&sheet))
}
