//! `mark` and `class`: hand-in lines taken to the register, and what it then holds.

use crate::files;
use crate::handin_words;
use crate::lab::{yes_no, Lab, Way};
use crate::mending;
use crate::reasons::{self, Mark, Reasons};
use crate::refusals::Refusal;
use crate::screen;
use crate::stop::{hold, Answer, Stop, ANSWERED, REFUSED};
use crate::tables::Table;
use portal::{ReadLineResult, Record};

/// The register's columns.
pub const REGISTER: &str = "student target way right repeated shut loose missing full";
const EACH: &str = "student target way mark items";

/// What `mark` is to show besides the register.
#[derive(Clone, Copy, Debug, Default)]
pub struct Shown {
    /// A row for each set.
    pub each: bool,
    /// With its reason.
    pub why: bool,
    /// The sets that were not handed in.
    pub missing: bool,
}

impl Shown {
    fn any(self) -> bool {
        self.each || self.why || self.missing
    }
}

/// A lab's hand-ins, taken line by line to a register; and the numbers of each line to a second one,
/// which must come out the same.
struct Afternoon<'a> {
    lab: &'a Lab,
    names: Vec<String>,
    file: &'a str,
    records: Vec<Record>,
    used: usize,
    second: Vec<Record>,
    sets: Vec<u64>,
    lines: usize,
    refused: usize,
}

/// What the hand-ins of a lab come to.
pub struct Marked {
    /// The register.
    pub records: Vec<Record>,
    /// The rows of each set, if they were asked for.
    pub rows: Table,
    /// 0, or 1 where a line was refused.
    pub status: u8,
}

impl Marked {
    /// Students, attempts, and those of them with full marks.
    fn figures(&self) -> [usize; 3] {
        let mut students: Vec<u64> = self.records.iter().map(|record| record.student).collect();
        students.sort_unstable();
        students.dedup();
        let full = self.records.iter().filter(|record| record.full()).count();
        [students.len(), self.records.len(), full]
    }
}

/// A lab of a class, marked.
pub struct MarkedLab<'a> {
    /// Its sheet, read.
    pub lab: &'a Lab,
    /// Its sheet's file.
    pub sheet: &'a str,
    /// Students, attempts, full.
    pub figures: [usize; 3],
}

/// What is to be done with each lab of a class.
pub type Next<'a> = &'a mut dyn FnMut(&MarkedLab) -> Answer<()>;

/// Takes all lines of a lab's hand-ins; refused ones are told on standard error.
pub fn mark(lab: &Lab, file: &str, handins: &[u8], shown: Shown) -> Answer<Marked> {
    let mut day = Afternoon {
        lab,
        names: lab.all_names()?,
        file,
        records: Vec::new(),
        used: 0,
        second: Vec::new(),
        sets: vec![0; portal::MAX_HANDED],
        lines: 0,
        refused: 0,
    };
    let mut rows = Table::new(EACH);
    for (at, line) in mending::mended_lines(handins).enumerate() {
        if !line.is_empty() && !mending::is_remark(&line) {
            day.take(at + 1, &line, shown, &mut rows)?;
        }
    }
    if day.refused > 0 {
        screen::tell(&format!("{file}: {} of {} lines refused\n", day.refused, day.lines));
    }
    let used = day.used;
    hold(day.records[..used] == day.second[..used], "the register's records")?;
    day.records.truncate(used);
    let status = if day.refused > 0 { REFUSED } else { ANSWERED };
    Ok(Marked { records: day.records, rows, status })
}

impl Afternoon<'_> {
    /// A line, the `at`-th of the file.
    fn take(&mut self, at: usize, line: &[u8], shown: Shown, rows: &mut Table) -> Answer<()> {
        self.lines += 1;
        self.make_room();
        let read = portal::read_line(&self.lab.sheet, line, &mut self.sets);
        let entered = portal::enter_line(&self.lab.sheet, line, &mut self.records, self.used);
        let again = self.by_numbers(&read);
        hold(entered.number == again.number && entered.used == again.used, "the register's calls")?;
        self.used = entered.used;
        if entered.number != 0 {
            self.refuse(at, line, entered.number, read.place);
        } else if shown.any() && read.withdraws == 0 {
            self.each(&read, shown, rows)?;
        }
        Ok(())
    }

    /// One record more than is used is always enough for a line, so that the register is never full.
    fn make_room(&mut self) {
        if self.used == self.records.len() {
            self.records.push(Record::default());
            self.second.push(Record::default());
        }
    }

    /// The same call by the numbers that were read.
    fn by_numbers(&mut self, read: &ReadLineResult) -> portal::RegisterResult {
        let (records, used) = (&mut self.second[..], self.used);
        if read.number != 0 {
            return portal::RegisterResult { number: read.number, used };
        }
        if read.withdraws == 1 {
            return portal::withdraw(records, used, read.student);
        }
        let sets = &self.sets[..read.count as usize];
        let (setup, lock) = (&self.lab.setup, read.lock == 1);
        portal::hand_in(setup, records, used, read.student, read.target, lock, sets)
    }

    fn refuse(&mut self, at: usize, line: &[u8], number: u64, field: u64) {
        self.refused += 1;
        let words = handin_words::of_line(&self.names, line, number, field);
        let shown = Some((line.to_vec(), words.part));
        let place = format!("{}:{at}", self.file);
        let refusal = Refusal { place, sentence: words.sentence, number, shown };
        screen::tell(&refusal.text());
    }

    /// The rows of a hand-in's sets, held against its record.
    fn each(&self, read: &ReadLineResult, shown: Shown, rows: &mut Table) -> Answer<()> {
        let way = if read.lock == 1 { Way::Lock } else { Way::Open };
        let target = read.target as usize;
        let sets = &self.sets[..read.count as usize];
        let reasons = Reasons::new(self.lab, target, way)?;
        let marks = reasons::each(self.lab, target, way, sets)?;
        let missing = reasons.missing(sets);
        hold(self.tallies(read, &marks, missing.len()), "the marks")?;
        let student = read.student.to_string();
        let begin = [student.as_str(), &self.lab.name(target)?, way.name()];
        let row = |rows: &mut Table, mark, set| -> Answer<()> {
            rows.row(&[&begin[..], &[mark, &self.lab.names(set)?]].concat());
            Ok(())
        };
        for (&set, &mark) in sets.iter().zip(&marks) {
            row(rows, mark.name(), set)?;
            if shown.why {
                let reason = reasons.of(set, mark)?;
                rows.note(&format!("  {}", reason.sentence));
                reason.below.iter().for_each(|line| rows.note(&format!("    {line}")));
            }
        }
        for set in missing.into_iter().filter(|_| shown.missing) {
            row(rows, "missing", set)?;
            if shown.why {
                reasons.steps(set)?.iter().for_each(|line| rows.note(&format!("    {line}")));
            }
        }
        Ok(())
    }

    /// Are the marks, counted, those of the hand-in's record?
    fn tallies(&self, read: &ReadLineResult, marks: &[Mark], missing: usize) -> bool {
        let (student, target, way) = (read.student, read.target, read.lock);
        let count = |name| marks.iter().filter(|mark| mark.name() == name).count() as u64;
        let counted = Record {
            student,
            target,
            way,
            right: count("right"),
            repeated: count("repeated"),
            shut: count("shut"),
            loose: count("loose"),
            missing: missing as u64,
        };
        self.records[..self.used].contains(&counted)
    }
}

/// A row of the register, behind other fields.
pub fn register_row(lab: &Lab, before: &[&str], record: &Record, table: &mut Table) -> Answer<()> {
    let way = if record.way == 1 { Way::Lock } else { Way::Open };
    let target = lab.name(record.target as usize)?;
    let Record { student, right, repeated, shut, loose, missing, .. } = *record;
    let student = student.to_string();
    let counts = [right, repeated, shut, loose, missing].map(|count| count.to_string());
    let counts: Vec<&str> = counts.iter().map(String::as_str).collect();
    let full = [yes_no(record.full())];
    table.row(&[before, &[&student, &target, way.name()], &counts, &full].concat());
    Ok(())
}

/// `mark`: the marks of one lab.
pub fn one_lab(sheet: &str, handins: &str, shown: Shown) -> Answer<(String, u8)> {
    let lab = Lab::read(sheet)?;
    let text = files::read_lines(handins)?;
    let marked = mark(&lab, handins, &text, shown)?;
    let mut table = Table::new(REGISTER);
    for record in &marked.records {
        register_row(&lab, &[], record, &mut table)?;
    }
    let rows = if shown.any() { marked.rows.text() + "\n" } else { String::new() };
    Ok((rows + &table.text(), marked.status))
}

/// The hand-ins that go with a sheet, and the lab's name.
pub fn beside(sheet: &str) -> (String, &str) {
    let lab = sheet.strip_suffix(".sheet").unwrap_or(sheet);
    (format!("{lab}.handins"), lab)
}

/// `class`: the marks of many labs. What is refused or can't be read is told, and the others go on.
/// Each lab that was marked is handed on.
pub fn class(sheets: &[String], summary: bool, next: Next) -> Answer<(String, u8)> {
    let header =
        if summary { "lab students attempts full".to_string() } else { format!("lab {REGISTER}") };
    let (mut table, mut highest) = (Table::new(&header), ANSWERED);
    for (at, sheet) in sheets.iter().enumerate() {
        screen::progress(at + 1, sheets.len(), sheet);
        let status = match lab_of_class(sheet, summary, &mut table, next) {
            Ok(status) => status,
            Err(stop @ Stop::Disagrees(_)) => return Err(stop),
            Err(stop) => {
                screen::tell(&stop.text());
                stop.status()
            }
        };
        highest = highest.max(status);
    }
    screen::progress_over();
    Ok((table.text(), highest))
}

fn lab_of_class(sheet: &str, summary: bool, table: &mut Table, next: Next) -> Answer<u8> {
    let lab = Lab::read(sheet)?;
    let (file, name) = beside(sheet);
    let marked = match files::read_if_there(&file)? {
        Some(text) => mark(&lab, &file, &text, Shown::default())?,
        None => {
            screen::tell(&format!("{sheet}: no hand-ins beside it: there is no {file}\n"));
            Marked { records: Vec::new(), rows: Table::new(EACH), status: ANSWERED }
        }
    };
    rows_of(&lab, name, &marked, summary, table)?;
    next(&MarkedLab { lab: &lab, sheet, figures: marked.figures() })?;
    Ok(marked.status)
}

fn rows_of(lab: &Lab, name: &str, marked: &Marked, summary: bool, table: &mut Table) -> Answer<()> {
    let name = files::as_field(name);
    if summary {
        let counts = marked.figures().map(|count| count.to_string());
        table.row(&[&name, &counts[0], &counts[1], &counts[2]]);
    } else {
        for record in &marked.records {
            register_row(lab, &[&name], record, table)?;
        }
    }
    Ok(())
}
