//! Course days through the command, from files to what a person sees: against the brute force and a
//! twin that prints; reasons followed step by step; and bytes without sense.
//!
//! `day gate` is the gate's part, with a fixed seed; `day fuzz SEED SECONDS` goes on for as long as it is
//! told; `day noise SEED SECONDS` gives the command random bytes alone; `day cells` and `day sheets` are for
//! the test of papers. GEMZULEG names the folder of the
//! command, else build/bin. The first difference is printed with its files, and the exit status is 1.

mod cases;
mod cells;
mod lines;
mod noise;
mod reasons;
mod run;
mod twin;

use brute::cases::random::{large_draft, random_draft};
use brute::cases::{pools, Rng};
use run::{Day, Ran};
use std::collections::BTreeMap;
use std::path::{Path, PathBuf};
use std::process::ExitCode;
use std::time::{Duration, Instant};
use twin::{Twin, WAYS};

const SEED: u64 = 20_261_117;
const AFTERNOONS: usize = 2_000;
const REGISTER: &str = "student target way right repeated shut loose missing full\n";
/// Each number of a line that has to be met in the gate, from each field: at least so often.
const FLOORS: [(u64, usize, usize); 13] = [
    (2, 0, 20),
    (4, 2, 5),
    (4, 3, 5),
    (5, 1, 50),
    (5, 2, 50),
    (5, 3, 50),
    (5, 4, 50),
    (5, 5, 10),
    (6, 4, 10),
    (6, 5, 5),
    (8, 2, 50),
    (8, 4, 50),
    (27, 0, 50),
];

/// A difference, told whole.
pub type Outcome = Result<(), String>;

/// What is run, with which seed, and what was met.
pub struct Run {
    rng: Rng,
    day: Day,
    met: BTreeMap<(u64, usize), usize>,
    counts: BTreeMap<&'static str, usize>,
}

fn command() -> PathBuf {
    let beside = Path::new(env!("CARGO_MANIFEST_DIR")).join("../../build/bin");
    std::env::var_os("GEMZULEG").map_or(beside, PathBuf::from).join("gemzuleg")
}

fn main() -> ExitCode {
    let words: Vec<String> = std::env::args().skip(1).collect();
    let number = |place: usize| words.get(place).and_then(|word| word.parse::<u64>().ok());
    let started = Instant::now();
    let day = Day::new(command());
    let seed = number(1).unwrap_or(SEED);
    let mut run = Run { rng: Rng::new(seed), day, met: BTreeMap::new(), counts: BTreeMap::new() };
    let until = started + Duration::from_secs(number(2).unwrap_or(0));
    let outcome = match (words.first().map(String::as_str), words.len()) {
        (Some("gate"), 1) => run.gate(),
        (Some("fuzz"), 3) => run.fuzz(until),
        (Some("noise"), 3) => noise::until(&mut run, until),
        (Some("cells"), 2 | 3) => {
            return told(cells::print(&words[1], words.get(2).map(String::as_str)))
        }
        (Some("sheets"), 2) => return told(cells::sheets(&words[1])),
        _ => {
            eprintln!("usage: day gate | day fuzz SEED SECONDS | day noise SEED SECONDS");
            eprintln!("       day cells SHEET [KIND,KIND..] | day sheets FOLDER");
            return ExitCode::from(2);
        }
    };
    let counts: Vec<String> =
        run.counts.iter().map(|(name, many)| format!("{many} {name}")).collect();
    let seconds = started.elapsed().as_secs();
    println!("day: seed {seed}, {seconds} seconds, {} runs: {}", run.day.runs, counts.join(", "));
    match outcome {
        Ok(()) => ExitCode::SUCCESS,
        Err(difference) => {
            println!("{difference}");
            ExitCode::FAILURE
        }
    }
}

/// The status of what has printed its answer itself.
fn told(outcome: Outcome) -> ExitCode {
    match outcome {
        Ok(()) => ExitCode::SUCCESS,
        Err(what) => {
            eprintln!("day: {what}");
            ExitCode::FAILURE
        }
    }
}

/// Compares a run with what it should be.
fn hold(what: &str, came: &Ran, status: i32, out: &str, err: &str) -> Outcome {
    let wanted = Ran { status: Some(status), out: out.to_string(), err: err.to_string() };
    if *came == wanted {
        return Ok(());
    }
    let show = |ran: &Ran| {
        format!(
            "status {:?}\n-- standard output\n{}-- standard error\n{}",
            ran.status, ran.out, ran.err
        )
    };
    Err(format!("{what}\n==== came: {}==== wanted: {}", show(came), show(&wanted)))
}

impl Run {
    fn count(&mut self, name: &'static str) {
        *self.counts.entry(name).or_default() += 1;
    }

    fn gate(&mut self) -> Outcome {
        for number in 0..AFTERNOONS {
            self.one(number, number % 5 == 0)?;
        }
        for number in 0..3 {
            self.large(number)?;
        }
        noise::some(self, 400)?;
        for (number, field, fewest) in FLOORS {
            let met = self.met.get(&(number, field)).copied().unwrap_or_default();
            if met < fewest {
                return Err(format!("{number} of field {field} was met {met} times, not {fewest}"));
            }
        }
        Ok(())
    }

    fn fuzz(&mut self, until: Instant) -> Outcome {
        let mut number = 0;
        while Instant::now() < until {
            self.one(number, true)?;
            noise::some(self, 2)?;
            if number % 200 == 199 {
                self.large(number)?;
            }
            number += 1;
        }
        Ok(())
    }

    /// One sheet and one afternoon; with all answers where these are asked for.
    fn one(&mut self, number: usize, answers: bool) -> Outcome {
        let draft = random_draft(&mut self.rng, number);
        let twin = Twin::new(&draft);
        self.day.write("lab.sheet", &twin.text);
        let file = cases::handins(&mut self.rng, &twin);
        self.day.write("lab.handins", &file);
        let told = |fault: String| {
            let sheet = String::from_utf8_lossy(&twin.text);
            format!("number {number}\n{sheet}\n---- {:?}\n{fault}", String::from_utf8_lossy(&file))
        };
        self.afternoon(&twin, &file, number).map_err(told)?;
        if answers {
            self.answers(&twin).map_err(told)?;
            self.why(&twin).map_err(told)?;
            self.pool(number)?;
        }
        Ok(())
    }

    /// A sheet at the bounds.
    fn large(&mut self, number: usize) -> Outcome {
        let draft = large_draft(&mut self.rng, number);
        let twin = Twin::new(&draft);
        self.day.write("lab.sheet", &twin.text);
        self.count("large sheets");
        self.answers(&twin)?;
        self.why(&twin)
    }

    fn afternoon(&mut self, twin: &Twin, file: &[u8], number: usize) -> Outcome {
        let expected = twin.afternoon("lab.handins", file);
        let status = i32::from(!expected.refused.is_empty());
        for &no in &expected.refused {
            *self.met.entry(no).or_default() += 1;
        }
        self.count("afternoons");
        let register = REGISTER.to_string() + &expected.rows.concat();
        let ran = self.day.run(&["mark", "lab.sheet", "lab.handins"], b"");
        hold("mark", &ran, status, &register, &expected.err)?;
        match number % 4 {
            0 => {
                let rows = expected.each.iter().filter(|(missing, _)| !missing);
                let rows: String = rows.map(|(_, row)| row.as_str()).collect();
                let out = format!("student target way mark items\n{rows}\n{register}");
                let ran = self.day.run(&["mark", "lab.sheet", "lab.handins", "--each"], b"");
                hold("mark --each", &ran, status, &out, &expected.err)
            }
            1 => {
                let rows: String = expected.each.iter().map(|(_, row)| row.as_str()).collect();
                let out = format!("student target way mark items\n{rows}\n{register}");
                let ran = self.day.run(&["mark", "--missing", "--why", "lab.sheet", "-"], file);
                let err = twin.afternoon("-", file).err;
                let bare: String =
                    ran.out.split_inclusive('\n').filter(|line| !line.starts_with(' ')).collect();
                hold("mark --missing --why", &Ran { out: bare, ..ran }, status, &out, &err)
            }
            2 => self.class(&expected, status),
            _ => Ok(()),
        }
    }

    fn class(&mut self, expected: &twin::Expected, status: i32) -> Outcome {
        let rows: String = expected.rows.iter().map(|row| format!("lab {row}")).collect();
        let out = format!("lab {REGISTER}{rows}");
        let ran = self.day.run(&["class", "lab.sheet"], b"");
        hold("class", &ran, status, &out, &expected.err)?;
        let records = &expected.records;
        let students: std::collections::BTreeSet<u64> = records.iter().map(|r| r.student).collect();
        let full = expected.rows.iter().filter(|row| row.ends_with(" yes\n")).count();
        let counts = format!("lab {} {} {full}\n", students.len(), records.len());
        let ran = self.day.run(&["class", "--summary", "lab.sheet"], b"");
        let out = format!("lab students attempts full\n{counts}");
        hold("class --summary", &ran, status, &out, &expected.err)
    }

    /// Every other answer about one sheet.
    fn answers(&mut self, twin: &Twin) -> Outcome {
        let item = self.rng.below(twin.names.len());
        let name = twin.names[item].clone();
        let all = twin.accounts();
        let (file, kinds) = cases::kinds(&mut self.rng, twin);
        self.day.write("lab.kinds", file.as_bytes());
        let way = self.rng.below(2);
        let set = self.rng.number() & self.rng.number() & twin.setup().all_items();
        let names = twin.set(set);
        let sheet = "lab.sheet";
        let report = String::from_utf8_lossy(&brute::report::report(&twin.text)).into_owned();
        let one = [item];
        let asked: Vec<(Vec<&str>, String)> = vec![
            (vec!["check", sheet], twin.check(sheet)),
            (vec!["report", sheet], report),
            (vec!["list", sheet], twin.list_text(&all, &[0, 1])),
            (vec!["list", sheet, &name], twin.list_text(&one, &[0, 1])),
            (vec!["list", sheet, &name, WAYS[way]], twin.list_text(&one, &[way])),
            (vec!["routes", sheet], twin.routes(&all)),
            (vec!["routes", sheet, &name], twin.routes(&one)),
            (vec!["harden", sheet], twin.harden(&all)),
            (vec!["harden", sheet, &name], twin.harden(&one)),
            (vec!["bags", sheet], twin.bags(&all)),
            (vec!["bags", sheet, &name], twin.bags(&one)),
            (vec!["kinds", sheet, "lab.kinds"], twin.kinds(&all, &kinds)),
            (vec!["kinds", sheet, "lab.kinds", &name], twin.kinds(&one, &kinds)),
            (vec!["reach", sheet, &names], twin.reach(set)),
            (vec!["lose", sheet, &names], twin.lose(set)),
        ];
        for (arguments, out) in asked {
            let ran = self.day.run(&arguments, b"");
            hold(&arguments.join(" "), &ran, 0, &out, "")?;
            self.count("answers");
        }
        Ok(())
    }

    /// Reasons for right, shut, loose and repeated sets, followed on the sheet.
    fn why(&mut self, twin: &Twin) -> Outcome {
        let target = self.rng.below(twin.names.len());
        for lock in [false, true] {
            let mut sets: Vec<u64> = twin.list(target, lock).iter().take(4).copied().collect();
            for _ in 0..4 {
                let any = self.rng.number() & self.rng.number();
                sets.push(any & if self.rng.chance(3, 4) { twin.chosen(lock) } else { u64::MAX });
            }
            let more = self.rng.number() & twin.chosen(lock);
            sets.push(sets[0] | more);
            sets.push(*self.rng.pick(&sets));
            sets.iter_mut().for_each(|set| *set &= twin.setup().all_items());
            let names: Vec<String> = sets.iter().map(|&set| twin.set(set)).collect();
            let mut arguments =
                vec!["why", "lab.sheet", &twin.names[target], WAYS[usize::from(lock)]];
            arguments.extend(names.iter().map(String::as_str));
            let ran = self.day.run(&arguments, b"");
            hold("why", &Ran { out: String::new(), ..ran.clone() }, 0, "", "")?;
            reasons::follow(twin, target, lock, &sets, &ran.out)
                .map_err(|fault| format!("{}\n{fault}\n{}", arguments.join(" "), ran.out))?;
            self.count("reasons");
        }
        Ok(())
    }

    /// Two sheets pooled: the pooled sheet, or the number with its place.
    fn pool(&mut self, number: usize) -> Outcome {
        let case = pools::random_pool(&mut self.rng, number);
        self.day.write("one.sheet", &case.first);
        self.day.write("two.sheet", &case.second);
        let ran = self.day.run(&["pool", "one.sheet", "two.sheet"], b"");
        self.count("pools");
        let first = ran.err.lines().next().unwrap_or_default().to_string();
        match brute::pool::pooled(&case.first, &case.second) {
            Ok(sheet) => hold("pool", &ran, 0, &String::from_utf8_lossy(&sheet), ""),
            Err(no) => {
                let [number, sheet, line, _] = no.numbers()[..] else { return Err("pool".into()) };
                let place = match (sheet, line, number) {
                    (1, 0, 2) => "one.sheet".to_string(),
                    (2, 0, 2) => "two.sheet".to_string(),
                    (1, line, _) if line > 0 => format!("one.sheet:{line}: "),
                    (2, line, _) if line > 0 => format!("two.sheet:{line}: "),
                    (1, _, _) => "one.sheet: ".to_string(),
                    (2, _, _) => "two.sheet: ".to_string(),
                    _ => "one.sheet, two.sheet: ".to_string(),
                };
                let told = first.starts_with(&place) && first.ends_with(&format!(" [{number}]"));
                if !told {
                    return Err(format!("pool: {first:?}, wanted {place} {number}"));
                }
                hold("pool", &Ran { err: String::new(), ..ran }, 1, "", "")
            }
        }
    }
}
