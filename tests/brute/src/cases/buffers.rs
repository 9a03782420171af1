//! Reports whose rows end at every place near the end of a buffer of 65,536 bytes, in which the
//! program `report` gathers what it writes.

use super::draft::{Draft, Edge, Item};
use super::random::at_least;
use super::SheetCase;
use crate::setup::{ACCOUNT, CREDENTIAL};

/// The bytes of a part of the report that is written at once, at most.
pub const BUFFER: usize = 65_536;

/// Where less than this is left of its buffer, the program finishes the list at hand, as far as
/// there is room, and begins nothing else.
pub const ROOM: usize = 4_096;

/// No row has more bytes. Where less than this is left of its buffer, the program begins no row of a
/// list.
pub const LONGEST: usize = 275;

/// Of the first target's sets, six of twelve items each, how many there are.
const SETS: usize = 924;

/// The rows of both targets have as many bytes: `to open 6 6 `, six names of eight letters with
/// five `+` between, and LF.
const ROW: usize = 66;

/// The first header.
const HEADER: usize = "target way size sum items\n".len();

/// A row of an account in front of the targets has its name and so many bytes besides:
/// ` open 1 1 `, a name of eight letters, and LF.
const FRONT: usize = 19;

/// How many accounts stand in front of the targets.
const FRONTS: usize = 15;

/// A sheet for each of as many lengths as a row of its targets has bytes. The first target's list
/// ends where `ROOM` bytes are left, or up to 64 more, so that the rows of the second one's go on in
/// the same part; on the last sheet it ends one byte further, where the program begins no list. So
/// every place behind is the end of a row on just one of the sheets: where `LONGEST` bytes are left,
/// the last byte of the buffer, and the places one before and one behind. The program ends a part at
/// the first row's end with less than `LONGEST` bytes left: on 65 sheets at 65 different places.
pub fn full_buffers() -> Vec<SheetCase> {
    let middle = BUFFER - ROOM - HEADER - SETS * ROW;
    (0..ROW)
        .map(|more| {
            let front = middle + 2 - ROW + more;
            let label = format!("a row's end at byte {}", HEADER + front + SETS * ROW);
            SheetCase::accepted(label, with_front(front).text())
        })
        .collect()
}

/// Accounts in front whose rows have so many bytes together, and then two targets that any six of
/// the twelve starting items open.
fn with_front(bytes: usize) -> Draft {
    let targets = at_least(6, 12);
    let (first, last) = (FRONTS, FRONTS + targets.items.len());
    let mut draft = Draft::of_items(0);
    draft.items.extend(front_names(bytes).into_iter().map(|name| account(&name)));
    for (number, item) in targets.items.into_iter().enumerate() {
        let name = format!("item_{number:03}");
        draft.items.push(Item { name, kind: CREDENTIAL, loss: None, ..item });
    }
    draft.items[last - 1] = account("to");
    draft.items.push(account("it"));
    let moved = |edge: Edge| Edge { from: edge.from + first, to: edge.to + first, ..edge };
    draft.edges.extend(targets.edges.into_iter().map(moved));
    (0..FRONTS).for_each(|front| draft.add_edge(first, front, 0, false));
    draft.add_edge(last - 1, last, 0, false);
    draft
}

fn account(name: &str) -> Item {
    Item { name: name.to_string(), kind: ACCOUNT, start: None, loss: None, rank: 0 }
}

/// Names of 5 to 10 letters for the accounts in front, so that their rows have so many bytes.
fn front_names(bytes: usize) -> Vec<String> {
    let letters = bytes - FRONTS * FRONT;
    let long = |number: usize| letters / FRONTS + usize::from(number < letters % FRONTS);
    (0..FRONTS)
        .map(|number| {
            let letter = char::from(b'a' + number as u8);
            letter.to_string().repeat(long(number))
        })
        .collect()
}
