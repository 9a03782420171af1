//! The report's text and the portal's numbers (01, "Report and portal").

use crate::calls::Calls;
use crate::lists::{Least, Table};
use crate::setup::{items_of, ACCOUNT};
use crate::sheet::{read, Sheet};

/// The portal's number for "never"; a refusal is this plus its number.
pub const PORTAL_NEVER: u64 = 1 << 62;

/// What the program `report` prints for a sheet.
pub fn report(text: &[u8]) -> Vec<u8> {
    let printed = match read(text) {
        Ok(sheet) => Report::new(text, &sheet).text(),
        Err(refusal) => format!("refused {} {}\n", refusal.number, refusal.line),
    };
    printed.into_bytes()
}

/// The portal's score: the number, 2^62 for "never", 2^62 plus the number for a refusal.
pub fn portal_score(text: &[u8], item: u64) -> u64 {
    portal_number(text, |calls| calls.score(item))
}

/// The portal's risk, coded likewise.
pub fn portal_risk(text: &[u8], item: u64) -> u64 {
    portal_number(text, |calls| calls.risk(item))
}

fn portal_number(text: &[u8], call: impl Fn(&Calls) -> Result<Least, u8>) -> u64 {
    portal_code(match read(text) {
        Ok(sheet) => call(&Calls::new(&sheet.setup)),
        Err(refusal) => Err(refusal.number),
    })
}

/// The portal's number for a score or risk, or for a refusal.
pub fn portal_code(answer: Result<Least, u8>) -> u64 {
    match answer {
        Ok(Least::Sum(sum)) => sum,
        Ok(Least::Never) => PORTAL_NEVER,
        Err(number) => PORTAL_NEVER + u64::from(number),
    }
}

struct Report {
    names: Vec<String>,
    accounts: Vec<usize>,
    calls: Calls,
}

impl Report {
    fn new(text: &[u8], sheet: &Sheet) -> Report {
        let items = 0..sheet.names.len();
        let is_account = |item: &usize| sheet.setup.places[*item].kind == ACCOUNT;
        Report {
            names: sheet.names_in(text),
            accounts: items.filter(is_account).collect(),
            calls: Calls::new(&sheet.setup),
        }
    }

    fn text(&self) -> String {
        let lists = format!("target way size sum items\n{}", self.list_rows());
        let scores = format!("target score risk back idle\n{}", self.score_rows());
        let pairs = format!("above below\n{}", self.pair_rows());
        format!("{lists}\n{scores}\n{pairs}")
    }

    /// The rows of each account: its open sets, then its lock sets, in list order.
    fn list_rows(&self) -> String {
        let mut rows = String::new();
        for &account in &self.accounts {
            let ways = [("open", self.calls.openings()), ("lock", self.calls.lockouts())];
            for (way, table) in ways {
                for &set in table.list(account) {
                    rows += &self.list_row(account, way, table, set);
                }
            }
        }
        rows
    }

    fn list_row(&self, account: usize, way: &str, table: &Table, set: u64) -> String {
        let (target, size, sum) = (&self.names[account], set.count_ones(), table.sum(set));
        let items: Vec<&str> = items_of(set).map(|item| self.names[item].as_str()).collect();
        format!("{target} {way} {size} {sum} {}\n", items.join("+"))
    }

    fn score_rows(&self) -> String {
        let row = |&account: &usize| {
            let item = account as u64;
            let score = shown(self.calls.score(item));
            let risk = shown(self.calls.risk(item));
            let back = yes_or_no(self.calls.backdoor(item));
            let idle = yes_or_no(self.calls.idle(item));
            format!("{} {score} {risk} {back} {idle}\n", self.names[account])
        };
        self.accounts.iter().map(row).collect()
    }

    /// The pairs of accounts that are out of rank, by the first, then the second.
    fn pair_rows(&self) -> String {
        let mut rows = String::new();
        for &above in &self.accounts {
            for &below in &self.accounts {
                let pair = self.calls.out_of_rank(above as u64, below as u64);
                if pair.expect("items of an accepted sheet") {
                    rows += &format!("{} {}\n", self.names[above], self.names[below]);
                }
            }
        }
        rows
    }
}

/// A least sum as printed: "never" is `-`. An accepted sheet's own items are never refused.
fn shown(answer: Result<Least, u8>) -> String {
    match answer.expect("an item of an accepted sheet") {
        Least::Sum(sum) => sum.to_string(),
        Least::Never => "-".to_string(),
    }
}

fn yes_or_no(answer: Result<bool, u8>) -> &'static str {
    if answer.expect("an item of an accepted sheet") {
        "yes"
    } else {
        "no"
    }
}
