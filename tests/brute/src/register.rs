//! The class register (02, point 12), worked out after each call from the log of all calls that were
//! made: nothing is kept up to date, so that no mistake can be handed on. [`hand_in`] and [`withdraw`]
//! are the two calls by themselves, on any slice and count.

use crate::calls::Calls;
use crate::lists::Marks;

/// An attempt as the register keeps it; the way is 0 for open and 1 for lock.
#[derive(Clone, Copy, Debug, Default, PartialEq, Eq)]
pub struct Record {
    /// Whose attempt it is.
    pub student: u64,
    /// The item that is to be opened or locked.
    pub target: u64,
    /// 0 for open, 1 for lock; a slice may have any other number.
    pub way: u64,
    /// The five mark counts.
    pub right: u64,
    /// Sets equal to an earlier one.
    pub repeated: u64,
    /// Sets that do not open (lock) the target.
    pub shut: u64,
    /// Sets of which a proper subset does.
    pub loose: u64,
    /// Sets of the list that were not handed in.
    pub missing: u64,
}

impl Record {
    /// Student, target and way.
    pub fn three(&self) -> (u64, u64, u64) {
        (self.student, self.target, self.way)
    }
}

/// An attempt as it is handed in.
#[derive(Clone, Debug)]
pub struct Attempt {
    /// Whose attempt it is.
    pub student: u64,
    /// The item that is to be opened or locked; any number.
    pub target: u64,
    /// The way: lock, or open.
    pub lock: bool,
    /// The sets that are handed in.
    pub sets: Vec<u64>,
}

impl Attempt {
    /// Student, target and way.
    pub fn three(&self) -> (u64, u64, u64) {
        (self.student, self.target, u64::from(self.lock))
    }

    /// The attempt's record, or the number by which the marking refuses. 12, 13.
    fn record(&self, calls: &Calls) -> Result<Record, u8> {
        let marks = if self.lock {
            calls.mark_lockouts(self.target, &self.sets)?
        } else {
            calls.mark_openings(self.target, &self.sets)?
        };
        let (student, target, way) = self.three();
        let Marks { right, repeated, shut, loose, missing } = marks;
        let [right, repeated, shut, loose, missing] =
            [right, repeated, shut, loose, missing].map(|count| count as u64);
        Ok(Record { student, target, way, right, repeated, shut, loose, missing })
    }
}

/// A call on the register.
#[derive(Clone, Debug)]
pub enum Call {
    /// A student's attempt.
    HandIn(Attempt),
    /// A student leaves.
    Withdraw(u64),
}

/// What a call answers: 0 or the refusal's number, and the count of used records.
pub type Answer = (u64, usize);

/// An afternoon: calls over one setup, from an empty register.
pub struct Afternoon<'a> {
    calls: &'a Calls,
    /// Every call that was made, and whether it was accepted.
    log: Vec<(Call, bool)>,
    slice: Vec<Record>,
}

impl Afternoon<'_> {
    /// No record is used, whatever stands in the slice.
    pub fn new(calls: &Calls, slice: Vec<Record>) -> Afternoon<'_> {
        Afternoon { calls, log: Vec::new(), slice }
    }

    /// The slice as the calls left it.
    pub fn slice(&self) -> &[Record] {
        &self.slice
    }

    /// How many records are used.
    pub fn used(&self) -> usize {
        self.standing().len()
    }

    /// Is the call at this place of the log accepted, and its student not withdrawn since?
    fn stands(&self, place: usize) -> Option<&Attempt> {
        let (Call::HandIn(attempt), true) = &self.log[place] else { return None };
        let withdrawn = |(call, accepted): &(Call, bool)| {
            *accepted && matches!(call, Call::Withdraw(student) if *student == attempt.student)
        };
        (!self.log[place..].iter().any(withdrawn)).then_some(attempt)
    }

    /// For each student, target and way the latest accepted attempt of those not withdrawn since, in
    /// the order in which these three were first accepted after the student's last withdrawal.
    fn standing(&self) -> Vec<&Attempt> {
        let all: Vec<&Attempt> = (0..self.log.len()).filter_map(|at| self.stands(at)).collect();
        let of = |three| move |attempt: &&&Attempt| attempt.three() == three;
        let first = |at: usize| !all[..at].iter().any(|before| before.three() == all[at].three());
        let firsts = (0..all.len()).filter(|&at| first(at));
        firsts.filter_map(|at| all.iter().rfind(of(all[at].three())).copied()).collect()
    }

    /// Makes a call. 12, 13, 26; 27. Here 25 can't come: the count is handed on as it came back.
    pub fn make(&mut self, call: Call) -> Answer {
        let used = self.used();
        let refused = self.refusal(&call, used);
        self.log.push((call, refused.is_none()));
        if let Some(number) = refused {
            return (u64::from(number), used);
        }
        let standing = self.standing();
        let records: Vec<Record> =
            standing.iter().map(|one| one.record(self.calls).unwrap()).collect();
        self.slice[..records.len()].copy_from_slice(&records);
        (0, records.len())
    }

    fn refusal(&self, call: &Call, used: usize) -> Option<u8> {
        let standing = self.standing();
        match call {
            Call::HandIn(attempt) => {
                let marking = attempt.record(self.calls).err();
                let new = !standing.iter().any(|other| other.three() == attempt.three());
                marking.or((new && used == self.slice.len()).then_some(26))
            }
            Call::Withdraw(student) => {
                let none = !standing.iter().any(|other| other.student == *student);
                none.then_some(27)
            }
        }
    }
}

/// One hand-in, on any slice and count. 25, 12, 13, 26.
pub fn hand_in(calls: &Calls, slice: &mut [Record], used: u64, attempt: &Attempt) -> (u64, u64) {
    if used > slice.len() as u64 {
        return (25, used);
    }
    let record = match attempt.record(calls) {
        Ok(record) => record,
        Err(number) => return (u64::from(number), used),
    };
    let behind = used as usize;
    match slice[..behind].iter().position(|old| old.three() == record.three()) {
        Some(place) => {
            slice[place] = record;
            (0, used)
        }
        None if behind < slice.len() => {
            slice[behind] = record;
            (0, used + 1)
        }
        None => (26, used),
    }
}

/// One withdrawal, on any slice and count. 25, 27.
pub fn withdraw(slice: &mut [Record], used: u64, student: u64) -> (u64, u64) {
    if used > slice.len() as u64 {
        return (25, used);
    }
    let before = slice[..used as usize].to_vec();
    let left: Vec<Record> = before.into_iter().filter(|record| record.student != student).collect();
    if left.len() as u64 == used {
        return (27, used);
    }
    slice[..left.len()].copy_from_slice(&left);
    (0, left.len() as u64)
}
