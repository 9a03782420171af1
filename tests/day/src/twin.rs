//! The command's answers once more: from the brute force, printed from the forms' own words.

use crate::lines::{self, No};
use brute::cases::draft::Draft;
use brute::register::{Afternoon, Call, Record};
use brute::setup::{holds, items_of, within, ACCOUNT, COLOURS};
use brute::{Calls, Least, Setup};

/// A sheet as the twin sees it.
pub struct Twin {
    /// Its bytes.
    pub text: Vec<u8>,
    /// The items' names.
    pub names: Vec<String>,
    /// All calls on it.
    pub calls: Calls,
}

/// `open` and `lock`.
pub const WAYS: [&str; 2] = ["open", "lock"];

impl Twin {
    /// Of an accepted draft.
    pub fn new(draft: &Draft) -> Twin {
        let text = draft.text();
        let sheet = brute::sheet::read(&text).expect("a draft is accepted");
        Twin { names: sheet.names_in(&text), calls: Calls::new(&sheet.setup), text }
    }

    /// The setup.
    pub fn setup(&self) -> &Setup {
        self.calls.setup()
    }

    /// The names of a set.
    pub fn set(&self, set: u64) -> String {
        let names: Vec<&str> = items_of(set).map(|item| self.names[item].as_str()).collect();
        if names.is_empty() {
            "-".to_string()
        } else {
            names.join("+")
        }
    }

    /// The accounts.
    pub fn accounts(&self) -> Vec<usize> {
        let places = &self.setup().places;
        (0..self.names.len()).filter(|&item| places[item].kind == ACCOUNT).collect()
    }

    /// A target's list.
    pub fn list(&self, target: usize, lock: bool) -> &[u64] {
        let list = if lock {
            self.calls.lockout_list(target as u64)
        } else {
            self.calls.opening_list(target as u64)
        };
        list.expect("a list")
    }

    /// Starting or losable items.
    pub fn chosen(&self, lock: bool) -> u64 {
        let chosen = if lock { self.setup().losable() } else { self.setup().starting() };
        chosen.iter().fold(0, |set, (item, _)| set | 1 << item)
    }

    fn sum(&self, set: u64, lock: bool) -> u64 {
        let value = |item: usize| {
            let place = self.setup().places[item];
            if lock { place.loss } else { place.start }.expect("a value")
        };
        items_of(set).map(value).sum()
    }

    /// What a set opens, or what is lost with it.
    pub fn spread(&self, set: u64, lock: bool) -> u64 {
        if lock { self.calls.lost_set(set) } else { self.calls.closure(set) }.expect("a set")
    }

    /// The mark of one set.
    pub fn mark(&self, target: usize, lock: bool, set: u64) -> &'static str {
        let reaches = |set| holds(self.spread(set, lock), target);
        if !within(set, self.chosen(lock)) || !reaches(set) {
            "shut"
        } else if items_of(set).any(|item| reaches(set & !(1 << item))) {
            "loose"
        } else {
            "right"
        }
    }

    fn row(&self, item: usize, colour: usize) -> u64 {
        self.setup().places[item].rows[colour]
    }

    fn recovery(&self, item: usize, colour: usize) -> bool {
        self.setup().places[item].recovery[colour] != 0
    }

    /// The colours of an item.
    pub fn colours(&self, item: usize) -> Vec<usize> {
        (0..COLOURS).filter(|&colour| self.row(item, colour) != 0).collect()
    }

    /// `(colour 1, recovery)`.
    pub fn colour_text(&self, item: usize, colour: usize) -> String {
        let recovery = if self.recovery(item, colour) { ", recovery" } else { "" };
        format!("(colour {colour}{recovery})")
    }

    // ---- the answers

    /// `check` of one file.
    pub fn check(&self, file: &str) -> String {
        let setup = self.setup();
        let recovery: u32 =
            setup.places.iter().flat_map(|place| place.recovery).map(u64::count_ones).sum();
        format!(
            "sheet items starting losable accounts arrows recovery\n{file} {} {} {} {} {} {recovery}\n",
            setup.count,
            setup.starting().len(),
            setup.losable().len(),
            self.accounts().len(),
            setup.edges()
        )
    }

    /// `list` of some targets and ways.
    pub fn list_text(&self, targets: &[usize], ways: &[usize]) -> String {
        let mut text = "target way size sum items\n".to_string();
        for &target in targets {
            for &way in ways {
                for &set in self.list(target, way == 1) {
                    let (size, sum) = (set.count_ones(), self.sum(set, way == 1));
                    let (name, way) = (&self.names[target], WAYS[way]);
                    text += &format!("{name} {way} {size} {sum} {}\n", self.set(set));
                }
            }
        }
        text
    }

    /// `harden`.
    pub fn harden(&self, targets: &[usize]) -> String {
        let mut text = "target size items\n".to_string();
        for &target in targets {
            for &set in self.calls.cut_list(target as u64).expect("cuts") {
                text += &format!("{} {} {}\n", self.names[target], set.count_ones(), self.set(set));
            }
        }
        text
    }

    /// `bags`.
    pub fn bags(&self, targets: &[usize]) -> String {
        let mut text = "target size values\n".to_string();
        for &target in targets {
            for bag in self.calls.bag_score(target as u64).expect("bags") {
                let values: Vec<String> = bag.iter().map(u64::to_string).collect();
                text += &format!("{} {} {}\n", self.names[target], bag.len(), values.join("+"));
            }
        }
        text
    }

    /// `kinds`, where the list has one for each item.
    pub fn kinds(&self, targets: &[usize], kinds: &[u8]) -> String {
        let mut text = "target location skill enters least\n".to_string();
        for &target in targets {
            let lowest = self.calls.kinds(target as u64, kinds).expect("kinds");
            for kind in 0..6u8 {
                let place = ["remote", "local"][usize::from(kind / 3)];
                let skill = ["none", "some", "expert"][usize::from(kind % 3)];
                let intruder = brute::kinds::Intruder::numbered(kind);
                let enters = yes(brute::kinds::at_or_above(lowest, intruder));
                let least = yes(holds(lowest, usize::from(kind)));
                text += &format!("{} {place} {skill} {enters} {least}\n", self.names[target]);
            }
        }
        text
    }

    /// `routes`.
    pub fn routes(&self, targets: &[usize]) -> String {
        let mut text = "target score without sum items recovery\n".to_string();
        let without = Calls::new(&self.setup().without_recovery());
        for &target in targets {
            let score = self.calls.score(target as u64).expect("a score");
            let bound = without.score(target as u64).expect("a score");
            if score >= bound {
                continue;
            }
            for &set in self.list(target, false) {
                let sum = self.sum(set, false);
                if Least::Sum(sum) < bound {
                    let (score, bound) = (least(score), least(bound));
                    let (name, names) = (&self.names[target], self.set(set));
                    let on = self.recovery_on(target, set);
                    text += &format!("{name} {score} {bound} {sum} {names} {on}\n");
                }
            }
        }
        text
    }

    /// The recovery colours on the part of the way in that the target stands on.
    fn recovery_on(&self, target: usize, set: u64) -> String {
        let way = brute::graph::way_in(self.setup(), set, target).expect("a way");
        let way: Vec<(usize, usize)> =
            way.iter().map(|&(item, colour)| (item.into(), colour.into())).collect();
        // Grown from the target on: what a needed step needs is needed.
        let mut needed = vec![target];
        loop {
            let more = way.iter().filter(|(item, _)| needed.contains(item));
            let more: Vec<usize> =
                more.flat_map(|&(item, colour)| items_of(self.row(item, colour))).collect();
            let before = needed.len();
            needed.extend(more.into_iter().filter(|item| !holds(set, *item)));
            needed.sort_unstable();
            needed.dedup();
            if needed.len() == before {
                break;
            }
        }
        let on = |(item, colour): &&(usize, usize)| {
            needed.contains(item) && self.recovery(*item, *colour)
        };
        let parts: Vec<String> = way
            .iter()
            .filter(on)
            .map(|(item, colour)| format!("{}:{colour}", self.names[*item]))
            .collect();
        parts.join("+")
    }

    /// `reach`.
    pub fn reach(&self, set: u64) -> String {
        let mut text = "item pass colour needs rec\n".to_string();
        let (mut held, mut pass) = (0, 0);
        let mut now = set;
        while now != 0 {
            for item in items_of(now) {
                let name = &self.names[item];
                let complete = |colour: &usize| within(self.row(item, *colour), held);
                match self.colours(item).into_iter().find(complete).filter(|_| pass > 0) {
                    None => text += &format!("{name} {pass} - - -\n"),
                    Some(colour) => {
                        let (needs, rec) =
                            (self.set(self.row(item, colour)), yes(self.recovery(item, colour)));
                        text += &format!("{name} {pass} {colour} {needs} {rec}\n");
                    }
                }
            }
            held |= now;
            pass += 1;
            let opens = |item: &usize| {
                let complete = |colour: &usize| within(self.row(*item, *colour), held);
                !holds(held, *item) && self.colours(*item).iter().any(complete)
            };
            now = (0..self.names.len()).filter(opens).fold(0, |set, item| set | 1 << item);
        }
        text
    }

    /// `lose`.
    pub fn lose(&self, set: u64) -> String {
        let mut text = "item pass lacks\n".to_string();
        let (mut lost, mut pass) = (0, 0);
        let mut now = set;
        while now != 0 {
            for item in items_of(now) {
                let rows = self.colours(item).iter().fold(0, |all, &c| all | self.row(item, c));
                let lacks = if pass == 0 { 0 } else { rows & lost };
                text += &format!("{} {pass} {}\n", self.names[item], self.set(lacks));
            }
            lost |= now;
            pass += 1;
            let goes = |item: &usize| {
                let colours = self.colours(*item);
                let hit = |&colour: &usize| self.row(*item, colour) & lost != 0;
                !holds(lost, *item) && !colours.is_empty() && colours.iter().all(hit)
            };
            now = (0..self.names.len()).filter(goes).fold(0, |set, item| set | 1 << item);
        }
        text
    }

    // ---- reasons

    /// Why a set is shut: the whole text below `shut: `, as `why` prints it.
    pub fn shut(&self, target: usize, lock: bool, set: u64) -> String {
        let name = &self.names[target];
        if let Some(stranger) = items_of(set & !self.chosen(lock)).next() {
            let item = &self.names[stranger];
            return if lock {
                format!("{item} is no losable item\n")
            } else {
                format!("{item} is no starting item: a stranger cannot begin with it\n")
            };
        }
        let reached = self.spread(set, lock);
        let more = self.set(reached & !set);
        let begin = match (lock, more.as_str()) {
            (false, "-") => "does not open NAME\n  it opens nothing\n".to_string(),
            (false, more) => format!("does not open NAME\n  it opens {more}\n"),
            (true, "-") => "does not shut NAME\n  nothing else is lost with it\n".to_string(),
            (true, more) => format!("does not shut NAME\n  {more} is lost with it\n"),
        };
        let losing = if lock { "losing " } else { "" };
        let mut text = format!("{losing}{} {}", self.set(set), begin.replace("NAME", name));
        for colour in self.colours(target) {
            let row = self.row(target, colour);
            let (takes, with) = (self.set(row), self.colour_text(target, colour));
            if !lock {
                let lacking = self.set(row & !reached);
                text += &format!("  {name} takes {takes} {with}, and {lacking} is lacking\n");
            } else if row & reached == 0 {
                text += &format!("  {name} keeps its way by {takes} {with}\n");
            }
        }
        if self.colours(target).is_empty() {
            text += &format!("  no arrow leads to {name}\n");
        }
        text
    }
}

/// `yes` or `no`.
pub fn yes(yes: bool) -> &'static str {
    if yes {
        "yes"
    } else {
        "no"
    }
}

fn least(least: Least) -> String {
    match least {
        Least::Sum(sum) => sum.to_string(),
        Least::Never => "-".to_string(),
    }
}

// ---- an afternoon

/// What `mark` has to print.
pub struct Expected {
    /// The register's rows.
    pub rows: Vec<String>,
    /// The register.
    pub records: Vec<Record>,
    /// The rows of each set, the missing ones told apart.
    pub each: Vec<(bool, String)>,
    /// Standard error.
    pub err: String,
    /// The numbers of refused lines, with their fields.
    pub refused: Vec<No>,
}

/// The lines of a file as they are read: numbered from 1, mended, without those that are passed over.
fn taken(file: &[u8]) -> Vec<(usize, Vec<u8>)> {
    let mark = [0xef, 0xbb, 0xbf];
    let body = if file.starts_with(&mark) { &file[3..] } else { file };
    let mut lines: Vec<Vec<u8>> = vec![Vec::new()];
    for &byte in body {
        if byte == b'\n' {
            lines.push(Vec::new());
        } else {
            lines.last_mut().expect("one").push(byte);
        }
    }
    let mended = lines.into_iter().map(|mut line| {
        while matches!(line.last(), Some(b'\r' | b' ' | b'\t')) {
            line.pop();
        }
        let mut out: Vec<u8> = Vec::new();
        for byte in line {
            let byte = if byte == b'\t' { b' ' } else { byte };
            if byte != b' ' || out.last().is_some_and(|&last| last != b' ') {
                out.push(byte);
            }
        }
        while out.last() == Some(&b' ') {
            out.pop();
        }
        out
    });
    let numbered = mended.enumerate().map(|(place, line)| (place + 1, line));
    numbered.filter(|(_, line)| !line.is_empty() && line[0] != b'#').collect()
}

impl Twin {
    /// What the hand-ins of a file come to.
    pub fn afternoon(&self, name: &str, file: &[u8]) -> Expected {
        let lines = taken(file);
        let mut day = Afternoon::new(&self.calls, vec![Record::default(); lines.len()]);
        let (mut each, mut err, mut refused) = (Vec::new(), String::new(), Vec::new());
        for (place, line) in &lines {
            let text: String = line.iter().map(|&byte| char::from(byte)).collect();
            let call = lines::read(&self.names, &text);
            let no = match &call {
                Err(no) => *no,
                Ok(call) => (day.make(call.clone()).0, 0),
            };
            if no.0 != 0 {
                refused.push(no);
                err += &self.refusal(name, *place, &text, no);
            } else if let Ok(Call::HandIn(attempt)) = call {
                each.extend(self.each(
                    attempt.student,
                    attempt.target,
                    attempt.lock,
                    &attempt.sets,
                ));
            }
        }
        if !refused.is_empty() {
            err += &format!("{name}: {} of {} lines refused\n", refused.len(), lines.len());
        }
        let records = day.slice()[..day.used()].to_vec();
        let rows = records.iter().map(|record| self.register_row(record)).collect();
        Expected { rows, records, each, err, refused }
    }

    fn register_row(&self, record: &Record) -> String {
        let Record { student, target, way, right, repeated, shut, loose, missing } = *record;
        let (name, way) = (&self.names[target as usize], WAYS[way as usize]);
        let full = yes(repeated + shut + loose + missing == 0);
        format!("{student} {name} {way} {right} {repeated} {shut} {loose} {missing} {full}\n")
    }

    fn each(&self, student: u64, target: u64, lock: bool, sets: &[u64]) -> Vec<(bool, String)> {
        let (item, way) = (target as usize, WAYS[usize::from(lock)]);
        let begin = format!("{student} {} {way}", self.names[item]);
        let mut rows = Vec::new();
        for (place, &set) in sets.iter().enumerate() {
            let again = sets[..place].contains(&set);
            let mark = if again { "repeated" } else { self.mark(item, lock, set) };
            rows.push((false, format!("{begin} {mark} {}\n", self.set(set))));
        }
        let missing = self.list(item, lock).iter().filter(|set| !sets.contains(set));
        rows.extend(missing.map(|&set| (true, format!("{begin} missing {}\n", self.set(set)))));
        rows
    }

    /// A refused line, as people read it.
    fn refusal(&self, file: &str, place: usize, line: &str, (number, field): No) -> String {
        let (sentence, part) = self.sentence(line, number, field);
        let shown: String = line
            .chars()
            .take(200)
            .map(|c| if (' '..='~').contains(&c) { c } else { '?' })
            .collect();
        let mut text = format!("{file}:{place}: {sentence} [{number}]\n    {shown}\n");
        if let Some((from, to)) = part {
            let (from, to) = (from.min(200), to.min(200));
            if from < to {
                text += &format!("    {}{}\n", " ".repeat(from), "^".repeat(to - from));
            }
        }
        text
    }

    /// The sentence of a refused line, and where its carets stand.
    fn sentence(&self, line: &str, number: u64, field: usize) -> (String, Option<(usize, usize)>) {
        let fields = lines::words(line, ' ');
        let whole = |place: usize| {
            let from: usize = fields[..place - 1].iter().map(|f| f.chars().count() + 1).sum();
            Some((from, from + fields[place - 1].chars().count()))
        };
        match (number, field) {
            (2, _) => {
                let letters: Vec<char> = line.chars().collect();
                let from =
                    letters.iter().position(|c| !(' '..='~').contains(c)).expect("an odd one");
                let more = letters[from + 1..].iter().take_while(|&&c| c as u32 & 0xc0 == 0x80);
                let to = from + 1 + more.count();
                (
                    "only plain letters, digits and signs may stand in a line".into(),
                    Some((from, to)),
                )
            }
            (4, _) => {
                let form = "a hand-in is: student account way set set ..";
                (format!("{form} and a withdrawal is: student withdraw"), None)
            }
            (7, _) => {
                (format!("a hand-in has at most 16384 sets; here are {}", fields.len() - 3), None)
            }
            (27, _) => (format!("student {} has handed nothing in", fields[0]), None),
            (5 | 8, 1..=3) => (self.of_head(&fields, number, field), whole(field)),
            (5, _) => {
                let form = "a set is names joined by +, as mailpw+token, or - for the empty set";
                (format!("{form}; a name is 1 to 16 of a-z, 0-9 and _"), whole(field))
            }
            _ => {
                let (before, _) = whole(field).expect("a field");
                let (sentence, (from, to)) = self.in_set(&fields[field - 1], number);
                (sentence, Some((before + from, before + to)))
            }
        }
    }

    /// 5 and 8, of a student, a target and a way.
    fn of_head(&self, fields: &[String], number: u64, field: usize) -> String {
        let (word, meant) = (&fields[field - 1], self.meant(&fields[field - 1]));
        match (number, field) {
            (5, 1) => {
                format!("'{word}' is no student number: 0 to 4000000000 without leading zeros")
            }
            (5, 2) => format!("'{word}' is no name: 1 to 16 of a-z, 0-9 and _{meant}"),
            (5, _) => format!("'{word}' is no way: open or lock"),
            _ => format!("no item is called '{word}'{meant}"),
        }
    }

    /// 8 and 6, of a set: the name that is meant, and where it stands in the field.
    fn in_set(&self, set: &str, number: u64) -> (String, (usize, usize)) {
        let names = lines::words(set, '+');
        let wrong = |place: &usize| match number {
            8 => !self.names.contains(&names[*place]),
            _ => names[..*place].contains(&names[*place]),
        };
        let place = (0..names.len()).find(wrong).expect("a name");
        let from: usize = names[..place].iter().map(|name| name.len() + 1).sum();
        let name = &names[place];
        let sentence = match number {
            8 => format!("no item is called '{name}'{}", self.meant(name)),
            _ => format!("'{name}' stands in the set twice"),
        };
        (sentence, (from, from + name.len()))
    }

    fn meant(&self, word: &str) -> String {
        let small = word.to_ascii_lowercase();
        let near: Vec<&String> =
            self.names.iter().filter(|name| distance(name, word) == 1).collect();
        let same = self.names.iter().find(|name| **name == small);
        let one = if near.len() == 1 { near.first().copied() } else { None };
        same.or(one).map_or(String::new(), |name| format!("; did you mean '{name}'?"))
    }
}

/// How many letters must be put in, taken out or changed, by the table of all beginnings.
fn distance(one: &str, other: &str) -> usize {
    let (one, other): (Vec<char>, Vec<char>) = (one.chars().collect(), other.chars().collect());
    let mut above: Vec<usize> = (0..=other.len()).collect();
    for (i, letter) in one.iter().enumerate() {
        let mut row = vec![i + 1];
        for (j, second) in other.iter().enumerate() {
            let changed = above[j] + usize::from(letter != second);
            row.push(changed.min(above[j + 1] + 1).min(row[j] + 1));
        }
        above = row;
    }
    above[other.len()]
}
