//! What the calls hand back: the structs of `include/portal.h`, field by field.

use std::fmt;

/// A call's no: the papers' number for it. `docs/TERMS.md` has a sentence for each.
#[derive(Clone, Copy, Debug, PartialEq, Eq)]
pub struct Refusal(pub u64);

impl fmt::Display for Refusal {
    fn fmt(&self, out: &mut fmt::Formatter<'_>) -> fmt::Result {
        write!(out, "refused with {}", self.0)
    }
}

impl std::error::Error for Refusal {}

macro_rules! results {
    ($($(#[$what:meta])* $name:ident { $($(#[$value:meta])* $field:ident,)* })*) => {
        $($(#[$what])*
        #[repr(C)]
        #[derive(Clone, Copy, Debug, PartialEq, Eq)]
        pub struct $name {
            /// 0 for an answer, else the refusal's number.
            pub number: u64,
            $($(#[$value])* pub $field: u64,)*
        }

        impl $name {
            /// The answer, or the refusal.
            pub fn answered(self) -> Result<$name, Refusal> {
                if self.number == 0 { Ok(self) } else { Err(Refusal(self.number)) }
            }

            /// The number and the fields behind it, in order.
            pub fn numbers(self) -> Vec<u64> {
                vec![self.number, $(self.$field,)*]
            }
        })*
    };
}

results! {
    /// A sheet's reading.
    ReadResult {
        /// The line of the no, from 1 on; 0 where there is none, or where it is about the whole text.
        line,
    }
    /// A part of a sheet's bytes.
    NameResult {
        /// Its first byte.
        start,
        /// How many bytes it has.
        length,
    }
    /// A pooled sheet.
    PoolResult {
        /// The sheet that was refused, 1 or 2; 0 where neither was.
        sheet,
        /// The line of that refusal.
        line,
        /// How many bytes the pooled sheet has.
        length,
    }
    /// The sheet of a setup.
    WriteSheetResult {
        /// How many bytes it has.
        length,
    }
    /// A set by its names.
    ReadSetResult {
        /// Whose the refusal's number is: 1 for the sheet, 2 for the names; 0 where there is none.
        text,
        /// The line of a refused sheet.
        place,
        /// The set.
        set,
    }
    /// The names of a set.
    WriteSetResult {
        /// How many bytes they have.
        length,
    }
    /// What a hand-in line says.
    ReadLineResult {
        /// Whose the refusal's number is: 1 for the sheet, 2 for the line; 0 for 15, and where there is none.
        text,
        /// The line of a refused sheet, or the field of a refused line, from 1 on; 0 for the whole text.
        place,
        /// 1 for a withdrawal, and 0 for a hand-in.
        withdraws,
        /// The student.
        student,
        /// The target's number.
        target,
        /// 1 for lockout sets, and 0 for opening sets.
        lock,
        /// How many sets stand in the list.
        count,
    }
    /// What a set opens.
    ClosureResult {
        /// The set of all items that it opens.
        set,
        /// How many passes lead there, the one that adds nothing counted as well.
        passes,
    }
    /// What the loss of a set takes away.
    LostResult {
        /// The set of all items that are lost.
        set,
    }
    /// A way in.
    WayInResult {
        /// 1 where the set opens the target, and 0 for "shut".
        opens,
        /// How many steps were written.
        steps,
    }
    /// A quick answer.
    OpensResult {
        /// 1 where the set opens the target, and 0 where it does not.
        opens,
        /// What is held at the stop.
        set,
    }
    /// A forecast for a target's opening list.
    ForecastResult {
        /// How many sets it has at most.
        sets,
    }
    /// The kinds of intruder that get into a target.
    KindsResult {
        /// The sum of 2^k over the lowest of them.
        kinds,
    }
    /// Both lists of a target.
    ListsResult {
        /// How many opening sets.
        openings,
        /// How many lockout sets.
        lockouts,
    }
    /// The smallest cut sets of a target.
    CutSetsResult {
        /// How many there are.
        count,
    }
    /// A target's score as bags.
    BagScoreResult {
        /// How many bags.
        bags,
    }
    /// The next set of a target's opening list.
    NextOpeningResult {
        /// 1 where a set is shown, and 0 for "no more".
        more,
        /// The set.
        set,
    }
    /// A target's score.
    SetupScoreResult {
        /// The score, or [`NEVER`](crate::NEVER).
        score,
    }
    /// A target's risk.
    SetupRiskResult {
        /// The risk, or [`NEVER`](crate::NEVER).
        risk,
    }
    /// Marks of a handed-in list.
    MarksResult {
        /// Sets of the list, each counted once.
        right,
        /// Sets equal to an earlier one.
        repeated,
        /// Sets with an item that does not count, or that do not open (lock) the target.
        shut,
        /// Sets of which a proper subset does.
        loose,
        /// Sets of the list that were not handed in.
        missing,
    }
    /// A finding.
    FindingResult {
        /// 1 for yes, and 0 for no.
        yes,
    }
}

/// An attempt as the class register keeps it. The way is 0 for open and 1 for lock.
#[repr(C)]
#[derive(Clone, Copy, Debug, Default, PartialEq, Eq)]
pub struct Record {
    /// Whose attempt it is.
    pub student: u64,
    /// The item that is to be opened or locked.
    pub target: u64,
    /// 0 for open, 1 for lock; a slice may have any other number.
    pub way: u64,
    /// Sets of the list.
    pub right: u64,
    /// Sets equal to an earlier one.
    pub repeated: u64,
    /// Sets that do not open (lock) the target.
    pub shut: u64,
    /// Sets of which a proper subset does.
    pub loose: u64,
    /// Sets of the list that were not handed in.
    pub missing: u64,
}

/// What a call on the class register hands back, after a refusal too.
#[repr(C)]
#[derive(Clone, Copy, Debug, PartialEq, Eq)]
pub struct RegisterResult {
    /// 0 for an answer, else the refusal's number.
    pub number: u64,
    /// How many records are used now.
    pub used: usize,
}

impl NameResult {
    /// The part's bytes, of the sheet that it is a part of.
    pub fn of(self, sheet: &[u8]) -> &[u8] {
        &sheet[self.start as usize..][..self.length as usize]
    }
}

impl MarksResult {
    /// Full: nothing is repeated, shut, loose or missing.
    pub fn full(self) -> bool {
        self.number == 0
            && self.repeated == 0
            && self.shut == 0
            && self.loose == 0
            && self.missing == 0
    }
}

impl Record {
    /// Full: nothing is repeated, shut, loose or missing.
    pub fn full(self) -> bool {
        self.repeated == 0 && self.shut == 0 && self.loose == 0 && self.missing == 0
    }
}
