//! The portal's calls as safe functions, over the library that `make lib` makes: what a portal
//! written in Rust would use. `include/portal.h` tells of each call more than stands here.
//!
//! A setup is a buffer of [`WORDS`] plain numbers, which [`read`] writes: the count; then of each of
//! 64 places kind (0 for a credential, 1 for an account), start, loss (or [`BLANK`]) and rank; then of
//! each place eight rows, one a colour; then the same rows of recovery edges; then the held set and
//! what it opens. A shorter buffer, or one with another kind, is no setup: 12. An item is its number, a
//! set the sum of 2^i over its items.
//!
//! This crate is all the unsafe code there is for the calls: a slice is a pointer and a length
//! there, and the calls are proved to stay within it.

mod results;

mod system;

pub use results::{
    BagScoreResult, ClosureResult, CutSetsResult, FindingResult, ForecastResult, KindsResult,
    ListsResult, LostResult, MarksResult, NameResult, NextOpeningResult, OpensResult, PoolResult,
    ReadLineResult, ReadResult, ReadSetResult, Record, Refusal, RegisterResult, SetupRiskResult,
    SetupScoreResult, WayInResult, WriteSetResult, WriteSheetResult,
};
pub use system::{end_with_the_reader, was_closed};

/// Sets that are always enough for one list of a target.
pub const MAX_LIST: usize = 3_432;
/// The places that a bag has.
pub const BAG_PLACES: usize = 14;
/// How many words a setup has.
pub const WORDS: usize = OPENED + 1;
/// Where among them the held set stands.
pub const HELD: usize = 1 + 4 * 64 + 2 * 8 * 64;
/// Where the set of the items stands that the held ones open.
pub const OPENED: usize = HELD + 1;
/// The number that stands for a blank, and so for no value.
pub const BLANK: u64 = u64::MAX;
/// "Never": the score of an item that no set opens, the risk of one that no loss shuts.
pub const NEVER: u64 = 1 << 62;
/// Bytes that are always enough for a pooled sheet.
pub const POOL_BYTES: usize = 11_626;
/// Bytes that are always enough for a saved sheet: no sheet has more.
pub const SAVE_BYTES: usize = 11_626;
/// Bytes that are always enough for the names of a set.
pub const SET_BYTES: usize = 1_087;
/// The most sets of one hand-in line.
pub const MAX_HANDED: usize = 16_384;
/// The version of the header that this crate was written for.
pub const VERSION: u64 = 40100;

mod linked {
    use super::*;

    extern "C" {
        pub fn portal_version() -> u64;
        pub fn portal_score(sheet: *const u8, length: usize, item: u64) -> u64;
        pub fn portal_risk(sheet: *const u8, length: usize, item: u64) -> u64;
        pub fn portal_read(sheet: *const u8, n: usize, setup: *mut u64, words: usize)
            -> ReadResult;
        pub fn portal_name(sheet: *const u8, length: usize, item: u64) -> NameResult;
        pub fn portal_pool(
            first: *const u8,
            first_length: usize,
            second: *const u8,
            second_length: usize,
            out: *mut u8,
            places: usize,
        ) -> PoolResult;
        pub fn portal_write_sheet(
            sheet: *const u8,
            length: usize,
            setup: *const u64,
            words: usize,
            out: *mut u8,
            places: usize,
        ) -> WriteSheetResult;
        pub fn portal_read_set(
            sheet: *const u8,
            length: usize,
            text: *const u8,
            text_length: usize,
        ) -> ReadSetResult;
        pub fn portal_write_set(
            sheet: *const u8,
            length: usize,
            set: u64,
            out: *mut u8,
            places: usize,
        ) -> WriteSetResult;
        pub fn portal_read_line(
            sheet: *const u8,
            length: usize,
            line: *const u8,
            line_length: usize,
            sets: *mut u64,
            places: usize,
        ) -> ReadLineResult;
        pub fn portal_enter_line(
            sheet: *const u8,
            length: usize,
            line: *const u8,
            line_length: usize,
            records: *mut Record,
            places: usize,
            used: usize,
        ) -> RegisterResult;
        pub fn portal_check(setup: *const u64, words: usize) -> u64;
        pub fn portal_closure(setup: *const u64, words: usize, set: u64) -> ClosureResult;
        pub fn portal_lost(setup: *const u64, words: usize, set: u64) -> LostResult;
        pub fn portal_way_in(
            setup: *const u64,
            words: usize,
            target: u64,
            set: u64,
            items: *mut u8,
            item_places: usize,
            colours: *mut u8,
            colour_places: usize,
        ) -> WayInResult;
        pub fn portal_opens(setup: *const u64, words: usize, target: u64, set: u64) -> OpensResult;
        pub fn portal_forecast(setup: *const u64, words: usize, target: u64) -> ForecastResult;
        pub fn portal_kinds(
            setup: *const u64,
            words: usize,
            target: u64,
            kinds: *const u8,
            places: usize,
        ) -> KindsResult;
        pub fn portal_lists(
            setup: *const u64,
            words: usize,
            target: u64,
            sets: *mut u64,
            places: usize,
        ) -> ListsResult;
        pub fn portal_cut_sets(
            setup: *const u64,
            words: usize,
            target: u64,
            sets: *mut u64,
            places: usize,
        ) -> CutSetsResult;
        pub fn portal_next_opening(
            setup: *const u64,
            words: usize,
            target: u64,
            last: u64,
        ) -> NextOpeningResult;
        pub fn portal_bag_at_most(
            bag: *const u64,
            values: usize,
            other: *const u64,
            other_values: usize,
        ) -> bool;
        pub fn portal_bag_score(
            setup: *const u64,
            words: usize,
            target: u64,
            values: *mut u64,
            value_places: usize,
            lengths: *mut u64,
            length_places: usize,
        ) -> BagScoreResult;
        pub fn portal_take_in(setup: *mut u64, words: usize, item: u64) -> u64;
        pub fn portal_take_out(setup: *mut u64, words: usize, item: u64) -> u64;
        pub fn portal_add_edge(
            setup: *mut u64,
            words: usize,
            from: u64,
            to: u64,
            colour: u64,
            recovery: bool,
        ) -> u64;
        pub fn portal_remove_edge(
            setup: *mut u64,
            words: usize,
            from: u64,
            to: u64,
            colour: u64,
        ) -> u64;
        pub fn portal_setup_score(setup: *const u64, words: usize, target: u64)
            -> SetupScoreResult;
        pub fn portal_setup_risk(setup: *const u64, words: usize, target: u64) -> SetupRiskResult;
        pub fn portal_mark_openings(
            setup: *const u64,
            words: usize,
            target: u64,
            sets: *const u64,
            count: usize,
        ) -> MarksResult;
        pub fn portal_mark_lockouts(
            setup: *const u64,
            words: usize,
            target: u64,
            sets: *const u64,
            count: usize,
        ) -> MarksResult;
        pub fn portal_hand_in(
            setup: *const u64,
            words: usize,
            records: *mut Record,
            places: usize,
            used: usize,
            student: u64,
            target: u64,
            lock: bool,
            sets: *const u64,
            count: usize,
        ) -> RegisterResult;
        pub fn portal_withdraw(
            records: *mut Record,
            places: usize,
            used: usize,
            student: u64,
        ) -> RegisterResult;
        pub fn portal_backdoor(setup: *const u64, words: usize, item: u64) -> FindingResult;
        pub fn portal_idle(setup: *const u64, words: usize, item: u64) -> FindingResult;
        pub fn portal_out_of_rank(
            setup: *const u64,
            words: usize,
            above: u64,
            below: u64,
        ) -> FindingResult;
    }
}

/// The version of the linked library, to be compared with [`VERSION`].
pub fn version() -> u64 {
    unsafe { linked::portal_version() }
}

/// The score of an item of a sheet: [`NEVER`] for "never", [`NEVER`] plus the number for a refusal.
pub fn score(sheet: &[u8], item: u64) -> u64 {
    unsafe { linked::portal_score(sheet.as_ptr(), sheet.len(), item) }
}

/// The risk of an item of a sheet, coded likewise.
pub fn risk(sheet: &[u8], item: u64) -> u64 {
    unsafe { linked::portal_risk(sheet.as_ptr(), sheet.len(), item) }
}

/// Reads a sheet, and writes its setup to the front of a buffer of at least [`WORDS`] places. 1 to
/// 11 with a line; 15 for an accepted sheet and a shorter buffer, to which nothing is written.
pub fn read(sheet: &[u8], setup: &mut [u64]) -> ReadResult {
    let (text, length) = (sheet.as_ptr(), sheet.len());
    unsafe { linked::portal_read(text, length, setup.as_mut_ptr(), setup.len()) }
}

/// Where an item's name stands in the sheet. 1 to 11, 13.
pub fn name(sheet: &[u8], item: u64) -> NameResult {
    unsafe { linked::portal_name(sheet.as_ptr(), sheet.len(), item) }
}

/// Pools two sheets into a buffer. 1 to 11 with the sheet and its line; 22, 23, 24.
pub fn pool(first: &[u8], second: &[u8], out: &mut [u8]) -> PoolResult {
    let (text, length) = (first.as_ptr(), first.len());
    let (other, other_length) = (second.as_ptr(), second.len());
    let (places, count) = (out.as_mut_ptr(), out.len());
    unsafe { linked::portal_pool(text, length, other, other_length, places, count) }
}

/// The sheet of a setup, under the names of a sheet, to a buffer. 1 to 11 of the sheet; 12, 13, 15.
pub fn write_sheet(sheet: &[u8], setup: &[u64], out: &mut [u8]) -> WriteSheetResult {
    let (text, length) = (sheet.as_ptr(), sheet.len());
    let (words, count) = (setup.as_ptr(), setup.len());
    unsafe { linked::portal_write_sheet(text, length, words, count, out.as_mut_ptr(), out.len()) }
}

/// The set that names joined by `+` name on a sheet. 1 to 11 of the sheet with its line; 5, 8, 6.
pub fn read_set(sheet: &[u8], text: &[u8]) -> ReadSetResult {
    let (names, size) = (text.as_ptr(), text.len());
    unsafe { linked::portal_read_set(sheet.as_ptr(), sheet.len(), names, size) }
}

/// The names of a set, joined by `+`, to a buffer. 1 to 11 of the sheet; 14, 15.
pub fn write_set(sheet: &[u8], set: u64, out: &mut [u8]) -> WriteSetResult {
    let (places, count) = (out.as_mut_ptr(), out.len());
    unsafe { linked::portal_write_set(sheet.as_ptr(), sheet.len(), set, places, count) }
}

/// What a hand-in line says, its sets to a list. 1 to 11 of the sheet with its line; 2, 4, 5, 6, 7, 8
/// of the line with its field; 15.
pub fn read_line(sheet: &[u8], line: &[u8], sets: &mut [u64]) -> ReadLineResult {
    let (text, length) = (sheet.as_ptr(), sheet.len());
    let (other, size) = (line.as_ptr(), line.len());
    unsafe { linked::portal_read_line(text, length, other, size, sets.as_mut_ptr(), sets.len()) }
}

/// A hand-in line taken to the register. 25; 1 to 11 of the sheet; 2, 4, 5, 6, 7, 8 of the line; 26, 27.
pub fn enter_line(
    sheet: &[u8],
    line: &[u8],
    records: &mut [Record],
    used: usize,
) -> RegisterResult {
    unsafe {
        linked::portal_enter_line(
            sheet.as_ptr(),
            sheet.len(),
            line.as_ptr(),
            line.len(),
            records.as_mut_ptr(),
            records.len(),
            used,
        )
    }
}

/// Question 12: 0 for a setup from an accepted sheet and calls that change it, else 12.
pub fn check(setup: &[u64]) -> u64 {
    unsafe { linked::portal_check(setup.as_ptr(), setup.len()) }
}

/// What a set opens, and the number of passes. 12, 14.
pub fn closure(setup: &[u64], set: u64) -> ClosureResult {
    unsafe { linked::portal_closure(setup.as_ptr(), setup.len(), set) }
}

/// What the loss of a set takes away. 12, 14.
pub fn lost(setup: &[u64], set: u64) -> LostResult {
    unsafe { linked::portal_lost(setup.as_ptr(), setup.len(), set) }
}

/// The way in from a set to a target: the steps' items to one list, their colours to the other.
/// 12, 13, 14, and 15 where the answer isn't "shut".
pub fn way_in(
    setup: &[u64],
    target: u64,
    set: u64,
    items: &mut [u8],
    colours: &mut [u8],
) -> WayInResult {
    unsafe {
        linked::portal_way_in(
            setup.as_ptr(),
            setup.len(),
            target,
            set,
            items.as_mut_ptr(),
            items.len(),
            colours.as_mut_ptr(),
            colours.len(),
        )
    }
}

/// Whether a set opens a target, and what is held at the stop. 12, 13, 14.
pub fn opens(setup: &[u64], target: u64, set: u64) -> OpensResult {
    unsafe { linked::portal_opens(setup.as_ptr(), setup.len(), target, set) }
}

/// How many sets a target's opening list has at most, told without listing it. 12, 13.
pub fn forecast(setup: &[u64], target: u64) -> ForecastResult {
    unsafe { linked::portal_forecast(setup.as_ptr(), setup.len(), target) }
}

/// The lowest kinds of intruder that get into a target, where the list has one for each item.
/// 12, 13, 16, 17.
pub fn kinds(setup: &[u64], target: u64, list: &[u8]) -> KindsResult {
    let (words, length) = (setup.as_ptr(), setup.len());
    unsafe { linked::portal_kinds(words, length, target, list.as_ptr(), list.len()) }
}

/// The opening list and, from the next place on, the lockout list of a target. 12, 13, 15.
pub fn lists(setup: &[u64], target: u64, sets: &mut [u64]) -> ListsResult {
    let (words, length) = (setup.as_ptr(), setup.len());
    unsafe { linked::portal_lists(words, length, target, sets.as_mut_ptr(), sets.len()) }
}

/// The smallest cut sets of a target: starting items to harden so that no way in is left. 12, 13, 15.
pub fn cut_sets(setup: &[u64], target: u64, sets: &mut [u64]) -> CutSetsResult {
    let (words, length) = (setup.as_ptr(), setup.len());
    unsafe { linked::portal_cut_sets(words, length, target, sets.as_mut_ptr(), sets.len()) }
}

/// The first set of a target's opening list after the last one shown, 0 at the beginning. 12, 13, 21.
pub fn next_opening(setup: &[u64], target: u64, last: u64) -> NextOpeningResult {
    unsafe { linked::portal_next_opening(setup.as_ptr(), setup.len(), target, last) }
}

/// Are both lists bags, and is the one at most the other?
pub fn bag_at_most(bag: &[u64], other: &[u64]) -> bool {
    unsafe { linked::portal_bag_at_most(bag.as_ptr(), bag.len(), other.as_ptr(), other.len()) }
}

/// A target's bag score: 14 places for each bag, and the number of its values. 12, 13, 15.
pub fn bag_score(
    setup: &[u64],
    target: u64,
    values: &mut [u64],
    lengths: &mut [u64],
) -> BagScoreResult {
    unsafe {
        linked::portal_bag_score(
            setup.as_ptr(),
            setup.len(),
            target,
            values.as_mut_ptr(),
            values.len(),
            lengths.as_mut_ptr(),
            lengths.len(),
        )
    }
}

/// Takes an item into the held set, and opens what it opens. 0, or 12, 13; a refused call leaves
/// every word, here and in the next three.
pub fn take_in(setup: &mut [u64], item: u64) -> u64 {
    unsafe { linked::portal_take_in(setup.as_mut_ptr(), setup.len(), item) }
}

/// Takes an item out of the held set; it stays open where the rest opens it. 0, or 12, 13.
pub fn take_out(setup: &mut [u64], item: u64) -> u64 {
    unsafe { linked::portal_take_out(setup.as_mut_ptr(), setup.len(), item) }
}

/// Adds an edge, marked for recovery on a yes. 0, or 12, 13, 18, 19, 7.
pub fn add_edge(setup: &mut [u64], from: u64, to: u64, colour: u64, recovery: bool) -> u64 {
    let (words, length) = (setup.as_mut_ptr(), setup.len());
    unsafe { linked::portal_add_edge(words, length, from, to, colour, recovery) }
}

/// Removes an edge, whatever its mark. 0, or 12, 13, 18, 20.
pub fn remove_edge(setup: &mut [u64], from: u64, to: u64, colour: u64) -> u64 {
    unsafe { linked::portal_remove_edge(setup.as_mut_ptr(), setup.len(), from, to, colour) }
}

/// A target's score. 12, 13.
pub fn setup_score(setup: &[u64], target: u64) -> SetupScoreResult {
    unsafe { linked::portal_setup_score(setup.as_ptr(), setup.len(), target) }
}

/// A target's risk. 12, 13.
pub fn setup_risk(setup: &[u64], target: u64) -> SetupRiskResult {
    unsafe { linked::portal_setup_risk(setup.as_ptr(), setup.len(), target) }
}

/// Marks of handed-in opening sets. 12, 13.
pub fn mark_openings(setup: &[u64], target: u64, sets: &[u64]) -> MarksResult {
    let (words, length) = (setup.as_ptr(), setup.len());
    unsafe { linked::portal_mark_openings(words, length, target, sets.as_ptr(), sets.len()) }
}

/// Marks of handed-in lockout sets. 12, 13.
pub fn mark_lockouts(setup: &[u64], target: u64, sets: &[u64]) -> MarksResult {
    let (words, length) = (setup.as_ptr(), setup.len());
    unsafe { linked::portal_mark_lockouts(words, length, target, sets.as_ptr(), sets.len()) }
}

/// Hands in sets as a student's attempt at the target's opening list, or with `lock` at its lockout
/// list: its record takes the place of the first used one with the same student, target and way, and
/// otherwise goes behind the used ones. 25, 12, 13, 26.
pub fn hand_in(
    setup: &[u64],
    records: &mut [Record],
    used: usize,
    student: u64,
    target: u64,
    lock: bool,
    sets: &[u64],
) -> RegisterResult {
    unsafe {
        linked::portal_hand_in(
            setup.as_ptr(),
            setup.len(),
            records.as_mut_ptr(),
            records.len(),
            used,
            student,
            target,
            lock,
            sets.as_ptr(),
            sets.len(),
        )
    }
}

/// Removes all records of a student and closes the gaps, order kept. 25, 27.
pub fn withdraw(records: &mut [Record], used: usize, student: u64) -> RegisterResult {
    unsafe { linked::portal_withdraw(records.as_mut_ptr(), records.len(), used, student) }
}

/// Is recovery a backdoor to the item? 12, 13.
pub fn backdoor(setup: &[u64], item: u64) -> FindingResult {
    unsafe { linked::portal_backdoor(setup.as_ptr(), setup.len(), item) }
}

/// Is the item's recovery idle? 12, 13.
pub fn idle(setup: &[u64], item: u64) -> FindingResult {
    unsafe { linked::portal_idle(setup.as_ptr(), setup.len(), item) }
}

/// Are the two items, in this order, out of rank? 12, 13.
pub fn out_of_rank(setup: &[u64], above: u64, below: u64) -> FindingResult {
    unsafe { linked::portal_out_of_rank(setup.as_ptr(), setup.len(), above, below) }
}
