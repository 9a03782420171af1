//! `kinds`: the file that says which kind of intruder gets which item, and which kinds get in.

use crate::files;
use crate::handin_words::{self, Words};
use crate::lab::{items, yes_no, Lab, Way};
use crate::mending;
use crate::refusals::Refusal;
use crate::sheet_words;
use crate::stop::{answered, hold, Answer};
use crate::tables::Table;

const HEADER: &str = "name location skill";
const LOCATIONS: [&str; 2] = ["remote", "local"];
const SKILLS: [&str; 3] = ["none", "some", "expert"];
const KINDS: u8 = 6;
/// No kind: not asked of an item that is no starting item.
const UNSAID: u8 = u8::MAX;

/// A no to a line of the file.
type No = (u64, Words);

fn no(number: u64, sentence: String, line: &str, field: usize) -> No {
    let before: usize = line.split(' ').take(field).map(|text| text.len() + 1).sum();
    let length = line.split(' ').nth(field).map_or(0, str::len);
    (number, Words { sentence, part: before..before + length })
}

fn whole(number: u64, sentence: String) -> No {
    (number, Words { sentence, part: 0..0 })
}

/// A row: the item, and its kind.
fn row(lab: &Lab, names: &[String], kinds: &[u8], line: &str) -> Result<(usize, u8), No> {
    let fields: Vec<&str> = line.split(' ').collect();
    let [name, location, skill] = fields[..] else {
        let count = fields.len();
        return Err(whole(4, format!("a row has three fields, {HEADER}; here are {count}")));
    };
    let item = lab
        .item(name)
        .map_err(|number| no(number, handin_words::of_name(names, name, number), line, 0))?;
    let place = |words: &[&str], word| words.iter().position(|other| *other == word);
    let Some(far) = place(&LOCATIONS, location) else {
        return Err(no(5, format!("'{location}' is no location: remote or local"), line, 1));
    };
    let Some(skilled) = place(&SKILLS, skill) else {
        return Err(no(5, format!("'{skill}' is no skill: none, some or expert"), line, 2));
    };
    if kinds[item] != UNSAID {
        return Err(no(6, format!("'{name}' has a kind already; one row for each item"), line, 0));
    }
    Ok((item, (3 * far + skilled) as u8))
}

/// The kind of each item, as the file says.
fn read(lab: &Lab, file: &str) -> Answer<Vec<u8>> {
    let text = files::read_lines(file)?;
    let names = lab.all_names()?;
    let mut kinds = vec![UNSAID; lab.count()];
    let mut header = false;
    for (at, bytes) in mending::mended_lines(&text).enumerate() {
        let line = String::from_utf8_lossy(&bytes);
        if line.is_empty() || mending::is_remark(&bytes) {
            continue;
        }
        let found = if !bytes.iter().all(|byte| (32..=126).contains(byte)) {
            Err((2, handin_words::of_line(&names, &bytes, 2, 0)))
        } else if header {
            row(lab, &names, &kinds, &line).map(|(item, kind)| kinds[item] = kind)
        } else if line == HEADER {
            header = true;
            Ok(())
        } else {
            Err(whole(3, sheet_words::no_header(&bytes, HEADER)))
        };
        if let Err((number, words)) = found {
            let place = format!("{file}:{}", at + 1);
            let shown = Some((bytes, words.part));
            return Err(Refusal { place, sentence: words.sentence, number, shown }.into());
        }
    }
    if !header {
        let sentence = format!("the first line must be: {HEADER}");
        return Err(Refusal { place: file.to_string(), sentence, number: 3, shown: None }.into());
    }
    Ok(kinds)
}

/// 17: the starting items without a kind.
fn unsaid(lab: &Lab, file: &str, kinds: &[u8]) -> Answer<Refusal> {
    let without = items(lab.chosen(Way::Open)).filter(|&item| kinds[item] == UNSAID);
    let names: Vec<String> = without.map(|item| lab.name(item)).collect::<Answer<_>>()?;
    let form = "a location (remote, local) and a skill (none, some, expert)";
    let sentence = format!("no kind is given for {}; a starting item has {form}", names.join(", "));
    Ok(Refusal { place: file.to_string(), sentence, number: 17, shown: None })
}

/// Is the one kind at most the other, in both parts?
fn at_most(one: u8, other: u8) -> bool {
    one / 3 <= other / 3 && one % 3 <= other % 3
}

/// A kind of intruder before a target.
pub struct Intruder {
    /// Where it is, and how skilled.
    pub words: [&'static str; 2],
    /// Does it get in?
    pub enters: bool,
    /// And is it one of the least that do?
    pub least: bool,
}

/// The kinds of a file, as it was read.
pub struct Kinds<'a> {
    file: &'a str,
    kinds: Vec<u8>,
}

impl Kinds<'_> {
    /// Reads a file.
    pub fn read<'a>(lab: &Lab, file: &'a str) -> Answer<Kinds<'a>> {
        Ok(Kinds { file, kinds: read(lab, file)? })
    }

    /// The six kinds before a target.
    pub fn before(&self, lab: &Lab, target: usize) -> Answer<Vec<Intruder>> {
        let kinds = &self.kinds;
        let lowest = portal::kinds(&lab.setup, target as u64, kinds);
        if lowest.number == 17 {
            return Err(unsaid(lab, self.file, kinds)?.into());
        }
        let lowest = answered(lowest.answered(), "the kinds")?.kinds;
        let mut all = Vec::new();
        for kind in 0..KINDS {
            let least = lowest >> kind & 1 == 1;
            let enters = (0..KINDS).any(|other| lowest >> other & 1 == 1 && at_most(other, kind));
            let gets = |item: &usize| at_most(kinds[*item], kind);
            let got =
                items(lab.chosen(Way::Open)).filter(gets).fold(0, |set, item| set | 1 << item);
            hold(enters == lab.opens(target, got)?, "the kinds")?;
            let (place, skill) = (usize::from(kind / 3), usize::from(kind % 3));
            all.push(Intruder { words: [LOCATIONS[place], SKILLS[skill]], enters, least });
        }
        Ok(all)
    }
}

/// `kinds`: which kinds of intruder get in, and which of them are the least.
pub fn answer(lab: &Lab, file: &str, account: Option<&String>) -> Answer<String> {
    let kinds = Kinds::read(lab, file)?;
    let mut table = Table::new("target location skill enters least");
    for target in lab.targets(account)? {
        let name = lab.name(target)?;
        for intruder in kinds.before(lab, target)? {
            let [place, skill] = intruder.words;
            table.row(&[&name, place, skill, yes_no(intruder.enters), yes_no(intruder.least)]);
        }
    }
    Ok(table.text())
}
