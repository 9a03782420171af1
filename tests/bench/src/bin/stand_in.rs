//! What the program `report` is held against. `stand_in read` starts and reads its standard input.
//! `stand_in rows` reads ready lists and writes their rows by `write!`; `stand_in bytes` writes the
//! same rows by appending bytes. `stand_in scores` reads a setup's words and makes the twin's four
//! tables and all scores. `src/ready.rs` tells how ready lists stand in the input.

#[path = "../ready.rs"]
mod ready;
#[allow(dead_code)] // Only scores are wanted here.
#[path = "../twin.rs"]
mod twin;

use ready::Ready;
use std::fs::File;
use std::io::{self, BufWriter, Read, Write};
use std::mem::ManuallyDrop;
use std::os::fd::FromRawFd;

const BUFFER: usize = 1 << 16;

fn main() -> io::Result<()> {
    let mode = std::env::args().nth(1).unwrap_or_default();
    let mut input = Vec::new();
    io::stdin().lock().read_to_end(&mut input)?;
    // Standard output as a file, which is not flushed at each line.
    let mut output = ManuallyDrop::new(unsafe { File::from_raw_fd(1) });
    match mode.as_str() {
        "read" => Ok(()),
        "rows" => write_rows(&Ready::read(&input), &mut output),
        "bytes" => append_rows(&Ready::read(&input), &mut output),
        "scores" => {
            make_scores(&ready::numbers(&input).collect::<Vec<u64>>());
            Ok(())
        }
        _ => Err(io::Error::other("usage: stand_in read | rows | bytes | scores")),
    }
}

/// The twin's tables and scores, with and without recovery.
fn make_scores(words: &[u64]) {
    let setup = twin::Setup::from_words(words);
    let mut tables = [[[0; twin::WORDS]; twin::VERTICES]; 2];
    for graph in [&setup.without_recovery(), &setup.graph] {
        std::hint::black_box(twin::scores(&setup, graph, &mut tables));
    }
}

/// The rows by `write!`.
fn write_rows(ready: &Ready, output: &mut File) -> io::Result<()> {
    let mut out = BufWriter::with_capacity(BUFFER, output);
    for list in &ready.lists {
        let (target, way, values) = (&ready.names[list.target], list.way(), ready.values(list));
        for &set in &list.sets {
            let sum: u64 = ready::members(set).map(|v| values[v]).sum();
            write!(out, "{target} {way} {} {sum} ", set.count_ones())?;
            for (place, v) in ready::members(set).enumerate() {
                if place > 0 {
                    out.write_all(b"+")?;
                }
                out.write_all(ready.names[v].as_bytes())?;
            }
            out.write_all(b"\n")?;
        }
    }
    out.flush()
}

/// The rows by appending bytes to a buffer.
fn append_rows(ready: &Ready, output: &mut File) -> io::Result<()> {
    let mut out = Vec::with_capacity(2 * BUFFER);
    for list in &ready.lists {
        let front = format!("{} {} ", ready.names[list.target], list.way());
        let values = ready.values(list);
        for &set in &list.sets {
            append_row(&mut out, ready, &front, values, set);
            if out.len() >= BUFFER {
                output.write_all(&out)?;
                out.clear();
            }
        }
    }
    output.write_all(&out)
}

fn append_row(out: &mut Vec<u8>, ready: &Ready, front: &str, values: &[u64], set: u64) {
    out.extend_from_slice(front.as_bytes());
    append_number(out, u64::from(set.count_ones()));
    out.push(b' ');
    append_number(out, ready::members(set).map(|v| values[v]).sum());
    let mut between = b' ';
    for v in ready::members(set) {
        out.push(between);
        out.extend_from_slice(ready.names[v].as_bytes());
        between = b'+';
    }
    out.push(b'\n');
}

fn append_number(out: &mut Vec<u8>, number: u64) {
    let mut digits = [0; 20];
    let mut place = digits.len();
    let mut rest = number;
    loop {
        place -= 1;
        digits[place] = b'0' + (rest % 10) as u8;
        rest /= 10;
        if rest == 0 {
            break;
        }
    }
    out.extend_from_slice(&digits[place..]);
}
