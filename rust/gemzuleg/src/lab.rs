//! A lab's sheet that was accepted: its bytes and its setup. Names and sets come and go by the proved
//! calls alone; the rest are the setup's own numbers.

use crate::files;
use crate::handin_words;
use crate::refusals::Refusal;
use crate::sheet_words;
use crate::stop::{answered, Answer};
use portal::{BLANK, WORDS};

/// The colours of an item: 0 to 7.
pub const COLOURS: usize = 8;

/// An accepted sheet.
pub struct Lab {
    /// Its bytes.
    pub sheet: Vec<u8>,
    /// Its setup, as the calls take it.
    pub setup: Vec<u64>,
}

/// The way that a set is to take: into an account, or out of it for good.
#[derive(Clone, Copy, Debug, PartialEq, Eq)]
pub enum Way {
    /// Sets of starting items that open it.
    Open,
    /// Sets of losable items whose loss shuts it.
    Lock,
}

impl Way {
    /// As tables have it.
    pub fn name(self) -> &'static str {
        match self {
            Way::Open => "open",
            Way::Lock => "lock",
        }
    }
}

/// The items of a set, rising.
pub fn items(set: u64) -> impl Iterator<Item = usize> {
    (0..64).filter(move |item| set >> item & 1 == 1)
}

/// Does every item of the one set stand in the other?
pub fn within(set: u64, other: u64) -> bool {
    set & !other == 0
}

impl Lab {
    /// Reads a file as a sheet.
    pub fn read(file: &str) -> Answer<Lab> {
        Lab::of(file, files::read_sheet(file)?)
    }

    /// Reads the bytes of a file as a sheet.
    pub fn of(file: &str, sheet: Vec<u8>) -> Answer<Lab> {
        let mut setup = vec![0; WORDS];
        let read = portal::read(&sheet, &mut setup);
        if read.number != 0 {
            return Err(sheet_words::refusal(file, &sheet, read.number, read.line).into());
        }
        Ok(Lab { sheet, setup })
    }

    /// How many items there are.
    pub fn count(&self) -> usize {
        self.setup[0] as usize
    }

    /// Is this item an account?
    pub fn is_account(&self, item: usize) -> bool {
        self.setup[1 + 4 * item] == 1
    }

    /// The accounts, in item order.
    pub fn accounts(&self) -> Vec<usize> {
        (0..self.count()).filter(|&item| self.is_account(item)).collect()
    }

    /// How hard an item is to get, or to lose; nothing where it is no starting, or losable, item.
    pub fn value(&self, item: usize, way: Way) -> Option<u64> {
        let value = match way {
            Way::Open => self.setup[2 + 4 * item],
            Way::Lock => self.setup[3 + 4 * item],
        };
        (value != BLANK).then_some(value)
    }

    /// How important an item is.
    pub fn rank(&self, item: usize) -> u64 {
        self.setup[4 + 4 * item]
    }

    /// Kind, start, loss and rank, as the item's row has them.
    pub fn fields(&self, item: usize) -> String {
        let kind = if self.is_account(item) { "a" } else { "c" };
        let (start, loss) = (self.value(item, Way::Open), self.value(item, Way::Lock));
        format!("{kind} {} {} {}", or_never(start), or_never(loss), self.rank(item))
    }

    /// The starting, or losable, items.
    pub fn chosen(&self, way: Way) -> u64 {
        let is = |item: &usize| self.value(*item, way).is_some();
        (0..self.count()).filter(is).fold(0, |set, item| set | 1 << item)
    }

    /// The items that are needed together for a colour of an item.
    pub fn row(&self, item: usize, colour: usize) -> u64 {
        self.setup[257 + 8 * item + colour]
    }

    /// Those of them whose arrow is for recovery.
    pub fn recovery(&self, item: usize, colour: usize) -> u64 {
        self.setup[769 + 8 * item + colour]
    }

    /// The colours of an item: those that need something.
    pub fn colours(&self, item: usize) -> impl Iterator<Item = usize> + '_ {
        (0..COLOURS).filter(move |&colour| self.row(item, colour) != 0)
    }

    /// The sum of a set's values.
    pub fn sum(&self, set: u64, way: Way) -> u64 {
        items(set).filter_map(|item| self.value(item, way)).sum()
    }

    /// The names of a set, joined by `+`, or `-`.
    pub fn names(&self, set: u64) -> Answer<String> {
        let mut out = vec![0; portal::SET_BYTES];
        let written = portal::write_set(&self.sheet, set, &mut out).answered();
        let length = answered(written, "the names of a set")?.length as usize;
        Ok(out[..length].iter().map(|&byte| char::from(byte)).collect())
    }

    /// An item's name.
    pub fn name(&self, item: usize) -> Answer<String> {
        self.names(1 << item)
    }

    /// All names, for words.
    pub fn all_names(&self) -> Answer<Vec<String>> {
        (0..self.count()).map(|item| self.name(item)).collect()
    }

    /// The set that an argument names.
    pub fn set(&self, argument: &str) -> Answer<u64> {
        let read = portal::read_set(&self.sheet, argument.as_bytes());
        if read.number == 0 {
            return Ok(read.set);
        }
        let words = handin_words::of_set(&self.all_names()?, argument, read.number);
        Err(Refusal::of_argument(argument, words.sentence, read.number).into())
    }

    /// The item that a name stands for, or the number of the no: one name, and no set.
    pub fn item(&self, name: &str) -> Result<usize, u64> {
        let read = portal::read_set(&self.sheet, name.as_bytes());
        if name == "-" || name.contains('+') {
            return Err(5);
        }
        match read.number {
            0 => Ok(read.set.trailing_zeros() as usize),
            number => Err(number),
        }
    }

    /// The item that an argument names.
    pub fn account(&self, argument: &str) -> Answer<usize> {
        match self.item(argument) {
            Ok(item) => Ok(item),
            Err(number) => {
                let sentence = handin_words::of_name(&self.all_names()?, argument, number);
                Err(Refusal::of_argument(argument, sentence, number).into())
            }
        }
    }

    /// The item of an argument that may be left out: then all accounts.
    pub fn targets(&self, argument: Option<&String>) -> Answer<Vec<usize>> {
        match argument {
            Some(name) => Ok(vec![self.account(name)?]),
            None => Ok(self.accounts()),
        }
    }

    /// The target's opening list, or its lockout list.
    pub fn list(&self, target: usize, way: Way) -> Answer<Vec<u64>> {
        let mut sets = vec![0; 2 * portal::MAX_LIST];
        let lists = portal::lists(&self.setup, target as u64, &mut sets).answered();
        let lists = answered(lists, "the lists")?;
        let (openings, lockouts) = (lists.openings as usize, lists.lockouts as usize);
        Ok(match way {
            Way::Open => sets[..openings].to_vec(),
            Way::Lock => sets[openings..openings + lockouts].to_vec(),
        })
    }

    /// The least sum over that list, as the proved call has it; nothing for "never".
    pub fn least(&self, target: usize, way: Way) -> Answer<Option<u64>> {
        let least = match way {
            Way::Open => {
                portal::setup_score(&self.setup, target as u64).answered().map(|it| it.score)
            }
            Way::Lock => {
                portal::setup_risk(&self.setup, target as u64).answered().map(|it| it.risk)
            }
        };
        Ok(Some(answered(least, "score and risk")?).filter(|&sum| sum != portal::NEVER))
    }

    /// What a set opens, or what its loss takes away.
    pub fn spread(&self, set: u64, way: Way) -> Answer<u64> {
        match way {
            Way::Open => {
                let closure = portal::closure(&self.setup, set).answered();
                Ok(answered(closure, "what a set opens")?.set)
            }
            Way::Lock => {
                let lost = portal::lost(&self.setup, set).answered();
                Ok(answered(lost, "what is lost")?.set)
            }
        }
    }

    /// Does a set open the target? Told by the quick call.
    pub fn opens(&self, target: usize, set: u64) -> Answer<bool> {
        let opens = portal::opens(&self.setup, target as u64, set).answered();
        Ok(answered(opens, "the quick answers")?.opens == 1)
    }
}

/// `-` for "never", and for no value.
pub fn or_never(value: Option<u64>) -> String {
    value.map_or("-".to_string(), |number| number.to_string())
}

/// `yes` or `no`.
pub fn yes_no(yes: bool) -> &'static str {
    if yes {
        "yes"
    } else {
        "no"
    }
}
