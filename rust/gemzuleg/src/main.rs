//! `gemzuleg`: the course day from a shell. Everything that is decided is decided by the proved calls
//! of the portal's library; this reads files, asks, and prints. What it works out itself it holds
//! against a proved call before it prints.

mod answers;
mod arguments;
mod board;
mod exercises;
mod files;
mod graph;
mod handin_words;
mod kinds;
mod lab;
mod lists;
mod marking;
mod mending;
mod near;
mod page;
mod papers;
mod picture;
mod pooling;
mod reasons;
mod refusals;
mod screen;
mod sheet_words;
mod sheets;
mod steps;
mod stop;
mod tables;
mod words;

use arguments::{Asked, Request};
use lab::{Lab, Way};
use marking::Shown;
use page::Paper;
use refusals::Refusal;
use std::process::ExitCode;
use stop::{Answer, Stop, ANSWERED, DISAGREES, FAILED};

const SHEET: &str = include_str!("example.sheet");
const HANDINS: &str = include_str!("example.handins");
const KINDS: &str = include_str!("example.kinds");

fn main() -> ExitCode {
    if portal::version() != portal::VERSION {
        screen::tell("gemzuleg: internal: the library is of another version; please report\n");
        return ExitCode::from(DISAGREES);
    }
    let status = arguments::parse(std::env::args_os().skip(1)).and_then(answer);
    ExitCode::from(status.unwrap_or_else(|stop| {
        screen::tell(&stop.text());
        stop.status()
    }))
}

fn answer(request: Request) -> Answer<u8> {
    match request {
        Request::Nothing => {
            screen::tell(arguments::HELP);
            Ok(FAILED)
        }
        Request::Help => done(screen::plain(arguments::HELP.as_bytes())),
        Request::Version => {
            let version = portal::VERSION;
            let parts = (version / 10_000, version / 100 % 100, version % 100);
            done(screen::plain(
                format!("gemzuleg {}.{}.{}\n", parts.0, parts.1, parts.2).as_bytes(),
            ))
        }
        Request::Command(asked) => run(&asked),
    }
}

fn done(written: Answer<()>) -> Answer<u8> {
    written.map(|()| ANSWERED)
}

/// Tables and a status.
fn marked((text, status): (String, u8)) -> Answer<u8> {
    screen::tables(&text)?;
    Ok(status)
}

fn run(asked: &Asked) -> Answer<u8> {
    let words = &asked.words;
    match asked.command {
        "example" => done(screen::plain(example(words.first())?.as_bytes())),
        "check" => sheets::check(words),
        "tidy" => done(screen::plain(&mending::tidy(&files::read(&words[0])?))),
        "report" => {
            let report = sheets::report(&words[0])?;
            done(screen::tables(&String::from_utf8_lossy(&report)))
        }
        "mark" => {
            let [each, why, missing] = ["--each", "--why", "--missing"].map(|o| asked.has(o));
            let handins = words.get(1).map_or("-", String::as_str);
            marked(marking::one_lab(&words[0], handins, Shown { each, why, missing })?)
        }
        "class" => match asked.given("--papers") {
            Some(folder) => marked(papers::class(folder, words, asked.has("--summary"))?),
            None => marked(marking::class(words, asked.has("--summary"), &mut |_| Ok(()))?),
        },
        "pool" => done(screen::plain(pooling::pool(&words[0], &words[1])?.as_bytes())),
        "explain" => done(screen::plain(explain(words)?.as_bytes())),
        _ => of_lab(asked),
    }
}

/// The commands that answer about one sheet.
fn of_lab(asked: &Asked) -> Answer<u8> {
    let words = &asked.words;
    let lab = Lab::read(&words[0])?;
    let text = match asked.command {
        "list" => {
            let targets = lab.targets(words.get(1))?;
            lists::list(&lab, &targets, words.get(2).map(|word| way(word)).transpose()?)?
        }
        "routes" => lists::routes(&lab, words.get(1))?,
        "harden" => lists::harden(&lab, words.get(1))?,
        "kinds" => kinds::answer(&lab, &words[1], words.get(2))?,
        "bags" => lists::bags(&lab, words.get(1))?,
        "reach" => board::reach(&lab, lab.set(&words[1])?)?,
        "lose" => board::lose(&lab, lab.set(&words[1])?)?,
        "paper" => {
            let filled = filled(&lab, asked)?;
            let kinds = asked.given("--kinds");
            let paper = Paper::new(&lab, &words[0], &words[1..])?;
            let page = if asked.has("--answers") {
                answers::answers(&paper, filled, kinds)?
            } else {
                exercises::exercises(&paper)?
            };
            return done(screen::plain(page.as_bytes()));
        }
        "why" => {
            let target = lab.account(&words[1])?;
            let text = board::why(&lab, target, way(&words[2])?, &words[3..])?;
            return done(screen::plain(text.as_bytes()));
        }
        _ => {
            let filled = filled(&lab, asked)?;
            return done(screen::plain(graph::graph(&lab, filled)?.as_bytes()));
        }
    };
    done(screen::tables(&text))
}

/// What a picture is to show filled.
fn filled(lab: &Lab, asked: &Asked) -> Answer<Option<graph::Filled>> {
    for (option, way) in [("--reach", Way::Open), ("--lose", Way::Lock)] {
        if let Some(set) = asked.given(option) {
            return Ok(Some(graph::Filled { set: lab.set(set)?, way }));
        }
    }
    Ok(None)
}

fn way(word: &str) -> Answer<Way> {
    match word {
        "open" => Ok(Way::Open),
        "lock" => Ok(Way::Lock),
        _ => Err(Refusal::of_argument(word, handin_words::no_way(word), 5).into()),
    }
}

fn example(which: Option<&String>) -> Answer<&'static str> {
    match which.map(String::as_str) {
        None | Some("sheet") => Ok(SHEET),
        Some("handins") => Ok(HANDINS),
        Some("kinds") => Ok(KINDS),
        Some(_) => Err(Stop::Wrong("'example' wants [sheet|handins|kinds]".to_string())),
    }
}

/// `explain`: the numbers' sentences, all where none is named.
fn explain(numbers: &[String]) -> Answer<String> {
    let known = |word: &String| match word.parse() {
        Ok(number @ 1..=words::LAST) => Ok(number),
        _ => {
            let shown = refusals::printable(word.as_bytes());
            Err(Stop::Wrong(format!("'{shown}' is no number of a refusal: 1 to {}", words::LAST)))
        }
    };
    let numbers: Vec<u64> = match numbers {
        [] => (1..=words::LAST).collect(),
        some => some.iter().map(known).collect::<Answer<_>>()?,
    };
    Ok(numbers.iter().map(|&number| format!("{number}: {}\n", words::sentence(number))).collect())
}
