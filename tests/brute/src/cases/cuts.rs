//! Small sheets on which a wrong list of cut sets shows (02, point 13), with the target and the list.

use super::forecasts::sheet;
use super::random::at_least;
use super::readings::{ORDER_SHEET, RING_SHEET};
use super::SheetCase;

/// A sheet, a target of it, and the smallest cut sets.
pub struct CutCase {
    /// The sheet, which is accepted.
    pub case: SheetCase,
    /// The target's item number.
    pub target: u64,
    /// The smallest cut sets in order, each as a list of items, worked out by hand.
    pub cuts: Vec<Vec<u64>>,
}

/// All of them.
pub fn cuts() -> Vec<CutCase> {
    let mut cases = Vec::new();
    let mut put = |label: &str, sheet: Vec<u8>, target: u64, cuts: &[&[u64]]| {
        let case = SheetCase::accepted(format!("cut sets: {label}"), sheet);
        let cuts = cuts.iter().map(|set| set.to_vec()).collect();
        cases.push(CutCase { case, target, cuts });
    };
    let (ordpw, mailpw, token, mail, order) = (0, 1, 2, 3, 4);
    put("order", ORDER_SHEET.into(), order, &[&[ordpw, mailpw], &[mailpw, token]]);
    put("mail", ORDER_SHEET.into(), mail, &[&[mailpw]]);
    put("a starting item itself", ORDER_SHEET.into(), token, &[&[token]]);
    put("the ring", RING_SHEET.into(), 5, &[&[0, 1], &[2, 3]]);
    let chain = [("p", "1"), ("q", "1"), ("t", "-")];
    // Without q alone, p opens q again.
    put("opened again", sheet(&chain, &["p q 0 0", "q t 0 0"]), 2, &[&[0, 1]]);
    put(
        "a starting item that is opened again",
        sheet(&chain, &["p q 0 0", "q t 0 0"]),
        1,
        &[&[0, 1]],
    );
    let pair = [("p", "1"), ("q", "1")];
    put("two that open each other", sheet(&pair, &["p q 0 0", "q p 0 0"]), 0, &[&[0, 1]]);
    put("no starting item", sheet(&[("t", "-")], &["t t 0 0"]), 0, &[&[]]);
    put("nothing opens it", sheet(&[("p", "1"), ("t", "-")], &[]), 1, &[&[]]);
    put("alone and starting", sheet(&[("t", "1")], &[]), 0, &[&[0]]);
    put("the target itself too", sheet(&[("p", "1"), ("t", "1")], &["p t 0 0"]), 1, &[&[0, 1]]);
    put("recovery alone", sheet(&[("p", "1"), ("t", "-")], &["p t 0 1"]), 1, &[&[0]]);
    put("a start of zero", sheet(&[("p", "0"), ("t", "-")], &["p t 7 0"]), 1, &[&[0]]);
    let four = [("p", "1"), ("q", "1"), ("r", "1"), ("t", "-")];
    // One set of one item and one of two: not only those of the fewest items.
    let edges = ["p t 0 0", "q t 0 0", "p t 1 0", "r t 1 0"];
    put("of different sizes", sheet(&four, &edges), 3, &[&[0], &[1, 2]]);
    let seven = at_least(8, 14);
    let target = seven.items.len() as u64 - 1;
    let case = SheetCase::accepted("cut sets: any 8 of 14 open", seven.text());
    cases.push(CutCase { case, target, cuts: sets_of(7, 14) });
    cases
}

/// All sets of so many of the first items, the smaller number first.
fn sets_of(size: u32, items: u64) -> Vec<Vec<u64>> {
    let numbers = (0..1u64 << items).filter(|number| number.count_ones() == size);
    numbers.map(|number| (0..items).filter(|item| number >> item & 1 == 1).collect()).collect()
}
