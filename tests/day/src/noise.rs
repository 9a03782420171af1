//! Bytes without sense: whatever files and arguments are, the command ends by itself with status 0, 1 or
//! 2, prints an answer or a line that says why not, and nothing else.

use crate::{Outcome, Run};
use brute::cases::damaged::damaged_sheet;
use brute::cases::Rng;
use std::time::Instant;

const COMMANDS: [&[&str]; 14] = [
    &["check", "noise.sheet"],
    &["list", "noise.sheet"],
    &["routes", "noise.sheet"],
    &["harden", "noise.sheet"],
    &["bags", "noise.sheet"],
    &["kinds", "noise.sheet", "noise.file"],
    &["mark", "noise.sheet", "noise.file", "--why", "--missing"],
    &["class", "noise.sheet"],
    &["why", "noise.sheet"],
    &["reach", "noise.sheet"],
    &["lose", "noise.sheet"],
    &["graph", "noise.sheet"],
    &["pool", "noise.sheet", "noise.file"],
    &["report", "noise.sheet"],
];

/// Bytes that come from people's programs, more often than others.
fn bytes(rng: &mut Rng, most: usize) -> Vec<u8> {
    let some =
        b"mailpw order token 0 1 - + open lock withdraw # \n\n\r\n\t,;\0\xef\xbb\xbf\xff\xfe";
    let length = rng.below(most + 1);
    let byte = |rng: &mut Rng| if rng.chance(1, 8) { rng.number() as u8 } else { *rng.pick(some) };
    (0..length).map(|_| byte(rng)).collect()
}

/// A sheet with a fault, a sheet with some bytes changed, or no sheet at all.
fn sheet(rng: &mut Rng) -> (Vec<u8>, Option<(u8, u64)>) {
    match rng.below(4) {
        0 => (bytes(rng, 400), None),
        1 => {
            let number = rng.between(1, 11) as u8;
            let mut text = damaged_sheet(rng, number).sheet;
            for _ in 0..rng.below(4) {
                let at = rng.below(text.len().max(1));
                if let Some(byte) = text.get_mut(at) {
                    *byte = rng.number() as u8;
                }
            }
            (text, None)
        }
        2 => {
            let number = rng.between(1, 11) as u8;
            let text = damaged_sheet(rng, number).sheet;
            let read = brute::sheet::read(&text).err().map(|no| (no.number, no.line));
            (text, read)
        }
        _ => {
            let number = rng.below(12);
            (brute::cases::random::random_draft(rng, number).text(), None)
        }
    }
}

fn words(rng: &mut Rng) -> Vec<String> {
    let some =
        ["-", "order", "open", "lock", "a+b", "+", "--", "--why", "--reach", "", "\u{e9}", "1"];
    (0..rng.below(4)).map(|_| rng.pick(&some).to_string()).collect()
}

fn one(run: &mut Run) -> Outcome {
    let (text, refused) = sheet(&mut run.rng);
    let file = if run.rng.chance(1, 3) { sheet(&mut run.rng).0 } else { bytes(&mut run.rng, 300) };
    run.day.write("noise.sheet", &text);
    run.day.write("noise.file", &file);
    run.day.write("noise.handins", &file);
    let command = COMMANDS[run.rng.below(COMMANDS.len())];
    let more = if refused.is_some() { Vec::new() } else { words(&mut run.rng) };
    let mut arguments: Vec<&str> = command.to_vec();
    arguments.extend(more.iter().map(String::as_str));
    let ran = run.day.run(&arguments, &file);
    run.count("runs of noise");
    let goes_on = matches!(command[0], "check" | "mark" | "class");
    let fault = match (ran.status, ran.err.is_empty()) {
        (Some(0), _) if command[0] != "class" && !ran.err.is_empty() => "words with status 0",
        (Some(0), _) => "",
        (Some(1 | 2), true) => "no words",
        (Some(1 | 2), false) if !goes_on && !ran.out.is_empty() => "an answer with a refusal",
        (Some(1 | 2), false) => "",
        _ => "status",
    };
    let placed = refused.is_none_or(|(number, line)| told(&ran.err, command[0], number, line));
    let tidied = tidy(run, &text);
    if fault.is_empty() && placed && tidied {
        return Ok(());
    }
    let shown = String::from_utf8_lossy(&text).into_owned();
    Err(format!("{arguments:?}: {fault} {refused:?} tidy {tidied}\n{ran:?}\n{shown:?}\n{file:?}"))
}

/// Is the number of a refused sheet told, and its line?
fn told(err: &str, command: &str, number: u8, line: u64) -> bool {
    let first = err.lines().next().unwrap_or_default();
    let wrong_use = matches!(command, "why" | "reach" | "lose") && first.contains("--help");
    let place =
        if line == 0 { "noise.sheet:".to_string() } else { format!("noise.sheet:{line}: ") };
    wrong_use || (first.starts_with(&place) && first.ends_with(&format!(" [{number}]")))
}

/// Tidying twice is tidying once, and leaves a sheet that is accepted as it was.
fn tidy(run: &mut Run, text: &[u8]) -> bool {
    let once = run.day.run(&["tidy", "noise.sheet"], b"");
    let again = run.day.run(&["tidy", "-"], once.out.as_bytes());
    let accepted = brute::sheet::read(text).is_ok();
    let kept = !accepted || once.out.as_bytes() == text;
    let plain = once.out.is_ascii();
    once.status == Some(0) && kept && (!plain || again.out == once.out)
}

/// Some of them.
pub fn some(run: &mut Run, count: usize) -> Outcome {
    (0..count).try_for_each(|_| one(run))
}

/// As many as there is time for.
pub fn until(run: &mut Run, until: Instant) -> Outcome {
    while Instant::now() < until {
        one(run)?;
    }
    Ok(())
}
