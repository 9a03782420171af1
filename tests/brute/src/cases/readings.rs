//! 01's own sheet, and small sheets that settle one reading of the sheet's rules each.

use super::SheetCase;
use crate::sheet::MAX_BYTES;

/// The sheet of 01, "Report and portal".
pub const ORDER_SHEET: &str = "\
name kind start loss rank
ordpw c 1 2 0
mailpw c 1 1 0
token c 3 2 0
mail a - - 1
order a - - 3

from to colour rec
mailpw mail 0 0
ordpw order 0 0
token order 0 0
mail order 1 1
";

/// Its report.
pub const ORDER_REPORT: &str = "\
target way size sum items
mail open 1 1 mailpw
mail lock 1 1 mailpw
order open 1 1 mailpw
order open 2 4 ordpw+token
order lock 2 3 ordpw+mailpw
order lock 2 3 mailpw+token

target score risk back idle
mail 1 1 no yes
order 1 3 yes no

above below
order mail
";

/// The ring of 003, example 5, with 01's starting items (B8).
pub const RING_SHEET: &str = "\
name kind start loss rank
pwd_backup c 1 - 0
pwd_manager c 1 - 0
device c 1 - 0
seed c 1 - 0
code c - - 0
acc_backup a - - 0

from to colour rec
device code 0 0
seed code 1 0
pwd_backup acc_backup 0 0
code acc_backup 0 0
acc_backup pwd_manager 0 0
acc_backup seed 0 0
pwd_manager pwd_backup 0 0
";

const ITEMS: &str = "name kind start loss rank\n";
const EDGES: &str = "from to colour rec\n";

/// A sheet of two items, `p` (line 2) and `q` (line 3), with these lines from line 6 on.
fn with_edges(edges: &str) -> String {
    format!("{ITEMS}p c 1 1 0\nq a - - 1\n\n{EDGES}{edges}")
}

/// A sheet with this as its only item row (line 2).
fn with_item(item: &str) -> String {
    format!("{ITEMS}{item}\n\n{EDGES}")
}

/// Sheets whose reading is known.
pub fn readings() -> Vec<SheetCase> {
    let mut cases = vec![
        SheetCase::accepted("01's sheet", ORDER_SHEET.into()),
        SheetCase::accepted("003's ring", RING_SHEET.into()),
    ];
    cases.extend(whole_text());
    cases.extend(parts());
    cases.extend(fields());
    cases.extend(item_forms());
    cases.extend(edge_forms());
    cases.extend(names());
    cases
}

fn refused(label: &str, sheet: impl Into<Vec<u8>>, number: u8, line: u64) -> SheetCase {
    SheetCase::refused(label, sheet.into(), number, line)
}

/// Questions 1 and 2.
fn whole_text() -> Vec<SheetCase> {
    let cut = &ORDER_SHEET[..ORDER_SHEET.len() - 1];
    let byte_in = |byte: u8| [b"name", &[byte][..], b"\n"].concat();
    let mut cases = vec![
        refused("an empty text", "", 2, 0),
        refused("no LF at the end", cut, 2, 0),
        refused("a NUL behind the last LF", [ORDER_SHEET.as_bytes(), &[0]].concat(), 2, 0),
        refused("CR LF lines", ORDER_SHEET.replace('\n', "\r\n"), 2, 0),
        refused("one CR, at the last line", format!("{cut}\r\n"), 2, 0),
        refused("too long and without LF: 1 before 2", vec![b'x'; MAX_BYTES + 1], 1, 0),
        refused("too long and of NUL bytes: 1 before 2", vec![0; 20_000], 1, 0),
        refused("too long, of LF alone", vec![b'\n'; MAX_BYTES + 1], 1, 0),
        refused("at the length, of LF alone", vec![b'\n'; MAX_BYTES], 3, 1),
        refused("byte 32 is text", byte_in(32), 3, 1),
        refused("byte 126 is text", byte_in(126), 3, 1),
    ];
    for byte in [0, 9, 11, 13, 31, 127, 128, 255] {
        cases.push(refused(&format!("byte {byte}"), byte_in(byte), 2, 0));
    }
    cases
}

/// Headers, the empty line and the end of the text: questions 3, 10 and 11.
fn parts() -> Vec<SheetCase> {
    let item = "p c 1 1 0\n";
    vec![
        SheetCase::accepted("one item and no edge", with_item("p c 1 1 0").into()),
        refused("an LF alone: the first line is asked 3 even if it is empty", "\n", 3, 1),
        refused("an empty line before the header", format!("\n{ORDER_SHEET}"), 3, 1),
        refused("a header with a space behind", ORDER_SHEET.replace("rank", "rank "), 3, 1),
        refused("a header with a space before", format!(" {ORDER_SHEET}"), 3, 1),
        refused("a header with two spaces", ORDER_SHEET.replace("kind ", "kind  "), 3, 1),
        refused("a header cut short", "name kind start loss\n", 3, 1),
        refused("a capital in the header", ORDER_SHEET.replace("name", "Name"), 3, 1),
        refused("the second header first", EDGES, 3, 1),
        refused("the header alone", ITEMS, 11, 2),
        refused("no item row", format!("{ITEMS}\n"), 10, 2),
        refused("no item row, all else in place", format!("{ITEMS}\n{EDGES}"), 10, 2),
        refused("items alone", format!("{ITEMS}{item}"), 11, 3),
        refused("nothing behind the empty line", format!("{ITEMS}{item}\n"), 11, 4),
        refused("the second header right after the items", format!("{ITEMS}{item}{EDGES}"), 4, 3),
        refused("a second empty line", format!("{ITEMS}{item}\n\n{EDGES}"), 3, 4),
        refused(
            "a space too many in the second header",
            format!("{ITEMS}{item}\nfrom to colour  rec\n"),
            3,
            4,
        ),
        refused(
            "a space behind the second header",
            format!("{ITEMS}{item}\nfrom to colour rec \n"),
            3,
            4,
        ),
        refused("the first header in the second's place", format!("{ITEMS}{item}\n{ITEMS}"), 3, 4),
        refused(
            "an edge row in the second header's place",
            format!("{ITEMS}{item}\np p 0 0\n"),
            3,
            4,
        ),
        refused("the header again is an item row", format!("{ITEMS}{ITEMS}{item}\n{EDGES}"), 5, 2),
        refused("the second header again is an edge row", with_edges(EDGES), 5, 6),
        refused("the first header among edges", with_edges(ITEMS), 4, 6),
        refused("an empty line at the end", with_edges("\n"), 4, 6),
        refused("an empty line among edges", with_edges("p q 0 0\n\nq p 0 0\n"), 4, 7),
        refused("two empty lines at the end", with_edges("p q 0 0\n\n\n"), 4, 7),
        refused(
            "a line of one space is not the empty line",
            format!("{ITEMS}{item} \n{EDGES}"),
            4,
            3,
        ),
        refused("a space where the empty line stands first", format!("{ITEMS} \n"), 4, 2),
    ]
}

/// Question 4: each space parts two fields.
fn fields() -> Vec<SheetCase> {
    let mut cases = Vec::new();
    let item_rows = [
        " p c 1 1 0",
        "p c 1 1 0 ",
        "p  c 1 1 0",
        "p c 1 1",
        "p c 1 1 0 0",
        "p",
        "    ",
        "     ",
        "p c 1  0",
        "p c  1 1 0",
        "P C 1 1",
        "from to colour rec",
    ];
    for row in item_rows {
        cases.push(refused(&format!("item row {row:?}"), with_item(row), 4, 2));
    }
    let edge_rows =
        [" p q 0 0", "p q 0 0 ", "p  q 0 0", "p q 0", "p q 0 0 0", "p", "   ", "p q  0", "zz zz 9"];
    for row in edge_rows {
        cases.push(refused(&format!("edge row {row:?}"), with_edges(&format!("{row}\n")), 4, 6));
    }
    cases
}

/// What is no number: in every numeric field a no under 5.
const NOT_NUMBERS: &[&str] =
    &["00", "01", "+1", "-0", "-1", "--", "1-", "1.0", "1e0", "0x1", "one", "1_0", "000", "/", ":"];
/// Too large for every numeric field, some of them small if they wrapped.
const TOO_LARGE: &[&str] = &[
    "4000000001",
    "4294967295",
    "4294967296",
    "4294967297",
    "18446744073709551615",
    "18446744073709551616",
    "18446744073709551617",
    "340282366920938463463374607431768211456",
    "100000000000000000000000000000000000000000000000000000000000000000000000",
];

/// Question 5 of item rows.
fn item_forms() -> Vec<SheetCase> {
    let mut cases = Vec::new();
    let good = [
        "p c 0 0 0",
        "p a - - 9",
        "p a - 0 0",
        "p c 0 - 1",
        "p a 4000000000 4000000000 9",
        "_ c 3999999999 1 5",
        "0 a 10 100 2",
        "abcdefghij012345 c 1 1 0",
        "c c - - 0",
        "name a 1 1 1",
    ];
    for row in good {
        cases.push(SheetCase::accepted(format!("item row {row:?}"), with_item(row).into()));
    }
    let mut bad: Vec<String> = [
        "P c 1 1 0",
        "p- c 1 1 0",
        "p.q c 1 1 0",
        "- c 1 1 0",
        "abcdefghij0123456 c 1 1 0",
        "p{ c 1 1 0",
        "p` c 1 1 0",
        "p: c 1 1 0",
        "p/ c 1 1 0",
        "p x 1 1 0",
        "p C 1 1 0",
        "p ca 1 1 0",
        "p - 1 1 0",
        "p cc 1 1 0",
        "p c 1 1 -",
        "p c 1 1 10",
        "p c 1 1 a",
        "p b 1 1 0",
    ]
    .map(str::to_string)
    .to_vec();
    for number in NOT_NUMBERS.iter().chain(TOO_LARGE) {
        bad.push(format!("p c {number} 1 0"));
        bad.push(format!("p c 1 {number} 0"));
        bad.push(format!("p c 1 1 {number}"));
    }
    for row in bad {
        cases.push(refused(&format!("item row {row:?}"), with_item(&row), 5, 2));
    }
    cases
}

/// Question 5 of edge rows.
fn edge_forms() -> Vec<SheetCase> {
    let mut cases = Vec::new();
    let good = ["p q 0 0", "q p 7 1", "p p 3 0", "q q 0 1"];
    for row in good {
        let sheet = with_edges(&format!("{row}\n"));
        cases.push(SheetCase::accepted(format!("edge row {row:?}"), sheet.into()));
    }
    let mut bad: Vec<String> = [
        "P q 0 0",
        "p Q 0 0",
        "- q 0 0",
        "p - 0 0",
        "p abcdefghij0123456 0 0",
        "abcdefghij0123456 q 0 0",
        "p q 8 0",
        "p q 9 0",
        "p q 10 0",
        "p q - 0",
        "p q 0 -",
        "p q 0 2",
        "p q 0 10",
        "p q a 0",
        "p q 0 y",
        // 5 is one question about all fields, before 8 and 9.
        "zz q 8 0",
        "zz zz 0 2",
        "p zz 00 0",
        "zz Q 0 0",
    ]
    .map(str::to_string)
    .to_vec();
    for number in NOT_NUMBERS.iter().chain(TOO_LARGE) {
        bad.push(format!("p q {number} 0"));
        bad.push(format!("p q 0 {number}"));
    }
    for row in bad {
        cases.push(refused(&format!("edge row {row:?}"), with_edges(&format!("{row}\n")), 5, 6));
    }
    let again = with_edges("p q 0 0\np q 0 2\n");
    cases.push(refused("5 before 9", again, 5, 7));
    cases
}

/// Questions 6, 8 and 9.
fn names() -> Vec<SheetCase> {
    let two_items = |rows: &str| format!("{ITEMS}{rows}\n{EDGES}");
    vec![
        refused("a name again", two_items("p c 1 1 0\nq c 1 1 0\np a - - 1\n"), 6, 4),
        refused("5 before 6", two_items("p c 1 1 0\np c 1 1 10\n"), 5, 3),
        refused("4 before 6", two_items("p c 1 1 0\np c 1 1\n"), 4, 3),
        SheetCase::accepted(
            "a name that begins another",
            two_items("p c 1 1 0\npp c 1 1 0\n").into(),
        ),
        SheetCase::accepted("a name that goes on", two_items("pp c 1 1 0\np c 1 1 0\n").into()),
        refused("an unknown from", with_edges("r q 0 0\n"), 8, 6),
        refused("an unknown to", with_edges("p r 0 0\n"), 8, 6),
        refused("two unknown names", with_edges("r s 0 0\n"), 8, 6),
        refused("a longer name", with_edges("pp q 0 0\n"), 8, 6),
        refused(
            "a name that only the second row would have",
            with_edges("p q 0 0\np qq 0 0\n"),
            8,
            7,
        ),
        refused("an edge again", with_edges("p q 0 0\np q 0 0\n"), 9, 7),
        refused(
            "an edge again, marked: 9 pays no heed to rec",
            with_edges("p q 0 0\np q 0 1\n"),
            9,
            7,
        ),
        refused("a marked edge again, unmarked", with_edges("p q 0 1\nq p 0 0\np q 0 0\n"), 9, 8),
        refused("a self edge again", with_edges("p p 5 0\np p 5 1\n"), 9, 7),
        SheetCase::accepted(
            "the same ends in another colour",
            with_edges("p q 0 0\np q 1 0\n").into(),
        ),
        SheetCase::accepted("the edge turned round", with_edges("p q 0 0\nq p 0 0\n").into()),
        SheetCase::accepted("both into one colour", with_edges("p q 0 0\nq q 0 1\n").into()),
    ]
}
