//! Sheets at every bound and for every refusal, with answers worked out by hand from 01's words: "The
//! sheet", and "Questions, and the number for no". Nothing here was read by any program first.

use super::SheetCase;

/// Where the rows of a case stand.
#[derive(Clone, Copy)]
enum Part {
    /// They are the whole text.
    Whole,
    /// They are the item rows, from line 2 on, of a sheet without edges.
    Items,
    /// They are the edge rows, from line 6 on, below the items p and q.
    Edges,
    /// They are the lines from line 4 on, below one item and an empty line.
    Behind,
}

/// What the paper says of a text.
#[derive(Clone, Copy, Debug, PartialEq, Eq)]
pub enum Answer {
    /// Accepted, with so many items, edges and recovery edges.
    Yes(u64, usize, usize),
    /// Refused with this number, at this line.
    No(u8, u64),
}

use Answer::{No, Yes};
use Part::{Behind, Edges, Items, Whole};

/// A text, and what the paper says of it.
pub struct Case {
    /// The text; what is told is whether it is accepted, or its refusal.
    pub case: SheetCase,
    /// The answer.
    pub answer: Answer,
}

/// A label (none: the rows are their own), rows in which `;` stands for LF, and the answer.
type Row = (Part, &'static str, &'static [u8], Answer);

#[rustfmt::skip]
const CASES: &[Row] = &[
    (Whole, "document 01's sheet", b"name kind start loss rank\nordpw c 1 2 0\nmailpw c 1 1 0\ntoken c 3 2 0\nmail a - - 1\norder a - - 3\n\nfrom to colour rec\nmailpw mail 0 0\nordpw order 0 0\ntoken order 0 0\nmail order 1 1\n", Yes(5, 4, 1)),
    (Whole, "one item and no edge", b"name kind start loss rank\np c - - 0\n\nfrom to colour rec\n", Yes(1, 0, 0)),
    (Whole, "an edge from an item to itself", b"name kind start loss rank\np c - 4 0\n\nfrom to colour rec\np p 0 0\n", Yes(1, 1, 0)),
    (Whole, "values 0", b"name kind start loss rank\np c 0 0 0\nq a - 0 0\n\nfrom to colour rec\n", Yes(2, 0, 0)),
    (Whole, "the highest values", b"name kind start loss rank\np c 4000000000 4000000000 9\nq a - - 9\n\nfrom to colour rec\nq p 7 1\np q 7 0\n", Yes(2, 2, 1)),
    (Whole, "edges in any order", b"name kind start loss rank\np c - - 0\nq c - - 0\nr a - - 0\n\nfrom to colour rec\nq r 1 0\np r 1 1\nr p 0 1\np r 0 0\n", Yes(3, 4, 2)),
    (Whole, "nothing", b"", No(2, 0)),
    (Whole, "one letter", b"x", No(2, 0)),
    (Whole, "no LF at the end", b"name kind start loss rank\np c - - 0\n\nfrom to colour rec", No(2, 0)),
    (Whole, "CR before LF", b"name kind start loss rank\r\np c - - 0\r\n\r\nfrom to colour rec\r\n", No(2, 0)),
    (Edges, "CR in the last line", b"p q 0 0;q p 0 0\r", No(2, 0)),
    (Whole, "CR in a wrong header, 2 before 3", b"x\r\n", No(2, 0)),
    (Items, "byte 0", b"p\x00 c - - 0", No(2, 0)),
    (Items, "byte 9", b"p\tc - - 0", No(2, 0)),
    (Items, "byte 31", b"p\x1f c - - 0", No(2, 0)),
    (Items, "byte 33", b"p! c - - 0", No(5, 2)),
    (Items, "byte 126", b"p~ c - - 0", No(5, 2)),
    (Items, "byte 127", b"p\x7f c - - 0", No(2, 0)),
    (Items, "byte 128", b"p\x80 c - - 0", No(2, 0)),
    (Items, "byte 255", b"p\xff c - - 0", No(2, 0)),
    (Whole, "one LF", b"\n", No(3, 1)),
    (Whole, "first line empty", b"\nname kind start loss rank\np c - - 0\n\nfrom to colour rec\n", No(3, 1)),
    (Whole, "first header with a space behind it", b"name kind start loss rank \n", No(3, 1)),
    (Whole, "first header with two spaces together", b"name  kind start loss rank\n", No(3, 1)),
    (Whole, "first header in capitals", b"NAME KIND START LOSS RANK\n", No(3, 1)),
    (Whole, "first header cut off", b"name kind start loss\n", No(3, 1)),
    (Whole, "second header in the place of the first", b"from to colour rec\n", No(3, 1)),
    (Behind, "second header missing", b"p p 0 0", No(3, 4)),
    (Behind, "second header with a space before it", b" from to colour rec", No(3, 4)),
    (Behind, "second header with a space behind it", b"from to colour rec ", No(3, 4)),
    (Behind, "second header with two spaces together", b"from to colour  rec", No(3, 4)),
    (Behind, "first header in the place of the second", b"name kind start loss rank", No(3, 4)),
    (Behind, "two empty lines", b";from to colour rec", No(3, 4)),
    (Items, "no empty line, so the second header is an item row", b"p c - - 0;from to colour rec", No(4, 3)),
    (Items, "first header among items, a row", b"p c - - 0;name kind start loss rank", No(5, 3)),
    (Edges, "second header among edges, a row", b"p q 0 0;from to colour rec", No(5, 7)),
    (Whole, "no item row", b"name kind start loss rank\n\nfrom to colour rec\n", No(10, 2)),
    (Whole, "no item row, and two empty lines", b"name kind start loss rank\n\n\nfrom to colour rec\n", No(10, 2)),
    (Whole, "over behind the first header", b"name kind start loss rank\n", No(11, 2)),
    (Whole, "over behind an item row", b"name kind start loss rank\np c - - 0\n", No(11, 3)),
    (Whole, "over behind the empty line", b"name kind start loss rank\np c - - 0\n\n", No(11, 4)),
    (Items, "one field", b"p", No(4, 2)),
    (Items, "four fields", b"p c - -", No(4, 2)),
    (Items, "six fields", b"p c - - 0 0", No(4, 2)),
    (Items, "five, the first empty", b" c - - 0", No(4, 2)),
    (Items, "five, the second empty", b"p  - - 0", No(4, 2)),
    (Items, "five, the last empty", b"p c - - ", No(4, 2)),
    (Items, "six, the last empty", b"p c - - 0 ", No(4, 2)),
    (Items, "four spaces", b"    ", No(4, 2)),
    (Items, "one space in the place of the empty line", b"p c - - 0; ", No(4, 3)),
    (Items, "4 before 5", b"P c - -", No(4, 2)),
    (Items, "4 before 6", b"p c - - 0;p c - -", No(4, 3)),
    (Items, "a name of 16 bytes", b"abcdefghij_45678 c - - 0", Yes(1, 0, 0)),
    (Items, "a name of 17 bytes", b"abcdefghij_456789 c - - 0", No(5, 2)),
    (Items, "", b"0 c - - 0", Yes(1, 0, 0)),
    (Items, "", b"az09_ c - - 0", Yes(1, 0, 0)),
    (Items, "", b"p-q c - - 0", No(5, 2)),
    (Items, "", b"p/q c - - 0", No(5, 2)),
    (Items, "", b"p:q c - - 0", No(5, 2)),
    (Items, "", b"pAq c - - 0", No(5, 2)),
    (Items, "", b"pZq c - - 0", No(5, 2)),
    (Items, "", b"p^q c - - 0", No(5, 2)),
    (Items, "", b"p`q c - - 0", No(5, 2)),
    (Items, "", b"p{q c - - 0", No(5, 2)),
    (Items, "", b"p}q c - - 0", No(5, 2)),
    (Items, "", b"p a - - 0", Yes(1, 0, 0)),
    (Items, "", b"p b - - 0", No(5, 2)),
    (Items, "", b"p C - - 0", No(5, 2)),
    (Items, "", b"p ca - - 0", No(5, 2)),
    (Items, "", b"p - - - 0", No(5, 2)),
    (Items, "", b"p c 4000000000 - 0", Yes(1, 0, 0)),
    (Items, "", b"p c 4000000001 - 0", No(5, 2)),
    (Items, "", b"p c 00 - 0", No(5, 2)),
    (Items, "", b"p c 01 - 0", No(5, 2)),
    (Items, "", b"p c +1 - 0", No(5, 2)),
    (Items, "", b"p c -0 - 0", No(5, 2)),
    (Items, "", b"p c -- - 0", No(5, 2)),
    (Items, "", b"p c 1.0 - 0", No(5, 2)),
    (Items, "", b"p c 4294967295 - 0", No(5, 2)),
    (Items, "", b"p c 4294967296 - 0", No(5, 2)),
    (Items, "", b"p c 4294967297 - 0", No(5, 2)),
    (Items, "", b"p c 18446744073709551616 - 0", No(5, 2)),
    (Items, "", b"p c 18446744073709551617 - 0", No(5, 2)),
    (Items, "", b"p c 10000000000000000000000000000000000000000000000000 - 0", No(5, 2)),
    (Items, "", b"p c - 4000000000 0", Yes(1, 0, 0)),
    (Items, "", b"p c - 4000000001 0", No(5, 2)),
    (Items, "", b"p c - 00 0", No(5, 2)),
    (Items, "", b"p c - -1 0", No(5, 2)),
    (Items, "", b"p c - 4294967295 0", No(5, 2)),
    (Items, "", b"p c - 4294967297 0", No(5, 2)),
    (Items, "", b"p c - 18446744073709551616 0", No(5, 2)),
    (Items, "", b"p c - 18446744073709551617 0", No(5, 2)),
    (Items, "", b"p c - - 9", Yes(1, 0, 0)),
    (Items, "", b"p c - - 10", No(5, 2)),
    (Items, "", b"p c - - 09", No(5, 2)),
    (Items, "", b"p c - - -", No(5, 2)),
    (Items, "", b"p c - - 18446744073709551616", No(5, 2)),
    (Items, "a name again", b"p c - - 0;p a 1 1 1", No(6, 3)),
    (Items, "a name of 16 bytes again", b"abcdefghijklmnop c - - 0;abcdefghijklmnop c - - 0", No(6, 3)),
    (Items, "5 before 6", b"p c - - 0;p b - - 0", No(5, 3)),
    (Items, "the first line with a no", b"p c - - 0;p c - - 0;P c - -", No(6, 3)),
    (Items, "p and pp", b"p c - - 0;pp c - - 0", Yes(2, 0, 0)),
    (Items, "names that differ in their last byte", b"abcdefghijklmnop c - - 0;abcdefghijklmnoq c - - 0", Yes(2, 0, 0)),
    (Items, "names that differ in their first byte", b"abcdefghijklmnop c - - 0;bbcdefghijklmnop c - - 0", Yes(2, 0, 0)),
    (Items, "names that are the same up to byte 8", b"abcdefgh c - - 0;abcdefgh0 c - - 0", Yes(2, 0, 0)),
    (Edges, "three fields", b"p q 0", No(4, 6)),
    (Edges, "five fields", b"p q 0 0 0", No(4, 6)),
    (Edges, "four, the first empty", b" q 0 0", No(4, 6)),
    (Edges, "four, the second empty", b"p  0 0", No(4, 6)),
    (Edges, "four, the last empty", b"p q 0 ", No(4, 6)),
    (Edges, "three spaces", b"   ", No(4, 6)),
    (Edges, "4 before 5", b"P q 0", No(4, 6)),
    (Edges, "an empty line at the end", b"", No(4, 6)),
    (Edges, "an empty line at the end, behind a row", b"p q 0 0;", No(4, 7)),
    (Edges, "an empty line between rows", b"p q 0 0;;q p 0 0", No(4, 7)),
    (Edges, "", b"p q 7 0", Yes(2, 1, 0)),
    (Edges, "", b"p q 8 0", No(5, 6)),
    (Edges, "", b"p q 00 0", No(5, 6)),
    (Edges, "", b"p q 07 0", No(5, 6)),
    (Edges, "", b"p q - 0", No(5, 6)),
    (Edges, "", b"p q 18446744073709551616 0", No(5, 6)),
    (Edges, "", b"p q 0 1", Yes(2, 1, 1)),
    (Edges, "", b"p q 0 2", No(5, 6)),
    (Edges, "", b"p q 0 01", No(5, 6)),
    (Edges, "", b"p q 0 -", No(5, 6)),
    (Edges, "", b"p q 0 18446744073709551617", No(5, 6)),
    (Edges, "", b"P q 0 0", No(5, 6)),
    (Edges, "", b"p abcdefghij_456789 0 0", No(5, 6)),
    (Edges, "", b"r q 0 0", No(8, 6)),
    (Edges, "", b"p r 0 0", No(8, 6)),
    (Edges, "", b"pp q 0 0", No(8, 6)),
    (Edges, "", b"r Q 0 0", No(5, 6)),
    (Edges, "", b"r q 8 0", No(5, 6)),
    (Edges, "", b"p r 0 2", No(5, 6)),
    (Edges, "an edge again", b"p q 0 0;p q 0 0", No(9, 7)),
    (Edges, "an edge again, for recovery", b"p q 0 0;p q 0 1", No(9, 7)),
    (Edges, "a recovery edge again, rec 0", b"p q 0 1;p q 0 0", No(9, 7)),
    (Edges, "an edge again, rec 2, 5 before 9", b"p q 0 0;p q 0 2", No(5, 7)),
    (Edges, "an edge in another colour", b"p q 0 0;p q 1 0", Yes(2, 2, 0)),
    (Edges, "an edge turned round", b"p q 0 0;q p 0 0", Yes(2, 2, 0)),
    (Edges, "two edges of one colour", b"p q 0 0;q q 0 0", Yes(2, 2, 0)),
];

fn text_of(part: Part, rows: &[u8]) -> Vec<u8> {
    let (above, below): (&[u8], &[u8]) = match part {
        Whole => return rows.to_vec(),
        Items => (b"name kind start loss rank\n", b"\n\nfrom to colour rec\n"),
        Edges => {
            (b"name kind start loss rank\np c - - 0\nq a - - 0\n\nfrom to colour rec\n", b"\n")
        }
        Behind => (b"name kind start loss rank\np c - - 0\n\n", b"\n"),
    };
    let lines = rows.iter().map(|&byte| if byte == b';' { b'\n' } else { byte });
    above.iter().copied().chain(lines).chain(below.iter().copied()).collect()
}

fn case(label: &str, text: Vec<u8>, answer: Answer) -> Case {
    let case = match answer {
        Yes(..) => SheetCase::accepted(label, text),
        No(number, line) => SheetCase::refused(label, text, number, line),
    };
    Case { case, answer }
}

/// A name of 16 bytes; its last two are the item's number.
fn name(item: usize) -> String {
    format!("account_number{item:02}")
}

/// `items` item rows, of which the first 14 are starting and losable, and the rows `more`; then `edges`
/// edge rows, of which 0 to 63 lead into item 0, the next 64 into item 1, and so on, and the rows `last`.
fn many(items: usize, more: &str, edges: usize, last: &str) -> Vec<u8> {
    let mut text = String::from("name kind start loss rank\n");
    for item in 0..items {
        let row = if item < 14 { "c 4000000000 4000000000 9" } else { "a - - 0" };
        text += &format!("{} {row}\n", name(item));
    }
    text = text + more + "\nfrom to colour rec\n";
    for edge in 0..edges {
        text += &format!("{} {} 7 1\n", name(edge % 64), name(edge / 64));
    }
    (text + last).into_bytes()
}

/// A sheet whose last line is filled up to this many bytes, the last of them LF.
fn long(bytes: usize) -> Vec<u8> {
    let mut text = b"name kind start loss rank\np c - - 0\n\nfrom to colour rec\n".to_vec();
    text.resize(bytes - 1, b'x');
    text.push(b'\n');
    text
}

fn bounds() -> Vec<Case> {
    let (new, first) =
        ("account_number00 account_number00 0 0\n", "account_number00 account_number00 7 0\n");
    let more = |rest: &str| format!("one_more {rest}\n");
    vec![
        case("16,384 bytes", long(16_384), No(4, 5)),
        case("16,385 bytes", long(16_385), No(1, 0)),
        case("16,384 bytes without LF", vec![b'x'; 16_384], No(2, 0)),
        case("16,385 bytes without LF, 1 before 2", vec![b'x'; 16_385], No(1, 0)),
        case(
            "64 items, 14 starting and losable, 256 edges",
            many(64, "", 256, ""),
            Yes(64, 256, 256),
        ),
        case("a 64th item", many(63, &more("a - - 0"), 0, ""), Yes(64, 0, 0)),
        case("a 65th item", many(64, &more("a - - 0"), 0, ""), No(7, 66)),
        case("a 65th item in no form, 5 before 7", many(64, &more("b - - 0"), 0, ""), No(5, 66)),
        case(
            "a 65th item with a name again, 6 before 7",
            many(64, "account_number00 a - - 0\n", 0, ""),
            No(6, 66),
        ),
        case("a 14th starting item", many(13, &more("c 0 - 0"), 0, ""), Yes(14, 0, 0)),
        case("a 15th starting item", many(14, &more("c 0 - 0"), 0, ""), No(7, 16)),
        case("a 14th losable item", many(13, &more("c - 0 0"), 0, ""), Yes(14, 0, 0)),
        case("a 15th losable item", many(14, &more("c - 0 0"), 0, ""), No(7, 16)),
        case(
            "a 15th item, neither starting nor losable",
            many(14, &more("a - - 0"), 0, ""),
            Yes(15, 0, 0),
        ),
        case("a 256th edge", many(64, "", 255, new), Yes(64, 256, 255)),
        case("a 257th edge", many(64, "", 256, new), No(7, 324)),
        case("a 257th edge, an empty line, 4 before 7", many(64, "", 256, "\n"), No(4, 324)),
        case(
            "a 257th edge from an unknown name, 8 before 7",
            many(64, "", 256, "one_more account_number00 0 0\n"),
            No(8, 324),
        ),
        case("a 257th edge that is there, 9 before 7", many(64, "", 256, first), No(9, 324)),
    ]
}

/// All of them.
pub fn by_hand() -> Vec<Case> {
    let named = |&(part, label, rows, answer): &Row| {
        let label = if label.is_empty() {
            String::from_utf8_lossy(rows).into_owned()
        } else {
            label.to_string()
        };
        case(&format!("by hand: {label}"), text_of(part, rows), answer)
    };
    CASES.iter().map(named).chain(bounds()).collect()
}

/// A sheet of three items, and where no name is handed back: an item, and its name.
pub const NAMES: &[(&[u8], u64, &[u8])] = &[
    (THREE, 0, b"first"),
    (THREE, 1, b"abcdefghijklmnop"),
    (THREE, 2, b"last"),
    (THREE, 3, b""),
    (THREE, u64::MAX, b""),
    (b"name kind start loss rank\nfirst c - - 0\n", 0, b""),
    (b"name kind start loss rank\nfirst c - - 0\n\nfrom to colour rec\nfirst last 0 0\n", 0, b""),
];

const THREE: &[u8] = b"name kind start loss rank\nfirst c - - 0\nabcdefghijklmnop a - - 0\nlast a - - 0\n\nfrom to colour rec\n";
