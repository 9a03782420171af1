//! What each number means: `explain`, and the last resort of every other sentence.

/// The numbers that there are: 1 to this one.
pub const LAST: u64 = 27;

/// The sentence of a number.
pub fn sentence(number: u64) -> &'static str {
    match number {
        1 => "the sheet is too long: at most 16384 bytes",
        2 => "the text has something else than plain letters, digits and signs (a tab, an accent, a Windows line end), or its last line has no line end",
        3 => "a header is missing or misspelt: 'name kind start loss rank' at the top, 'from to colour rec' below the empty line",
        4 => "a row has too many fields or too few: five for an item, four for an arrow; a hand-in is 'student account way set set ..'",
        5 => "a field is not in its form, or out of its range",
        6 => "a name is used twice: by two items of a sheet, or in one set",
        7 => "too many: a sheet has at most 64 items, 14 with a start, 14 with a loss, and 256 arrows; a hand-in has at most 16384 sets",
        8 => "no item has this name",
        9 => "the arrow is there already: the same from, to and colour",
        10 => "no item stands above the empty line",
        11 => "the sheet ends before 'from to colour rec'",
        12 => "the numbers are no setup that a sheet can give",
        13 => "there is no such item",
        14 => "the set has an item that is not on the sheet",
        15 => "there is too little room for the answer",
        16 => "there must be one kind for each item",
        17 => "a starting item has no kind: a location (remote, local) and a skill (none, some, expert)",
        18 => "a colour is a number from 0 to 7",
        19 => "the arrow to add is there already",
        20 => "the arrow to remove is not there",
        21 => "the last set shown has an item that is no starting item",
        22 => "the two sheets do not say the same of an item that is in both",
        23 => "together the two sheets are too large: at most 64 items, 14 with a start, 14 with a loss, 256 arrows, and 8 colours into one item",
        24 => "there is too little room for the pooled sheet",
        25 => "the register says that it holds more records than it has",
        26 => "the register is full",
        27 => "the student has handed nothing in",
        _ => "a number that this version does not have",
    }
}
