//! Small sheets on which a wrong forecast shows (02, point 10), with the target and its forecast.

use super::random::at_least;
use super::SheetCase;

/// A sheet, a target of it, and the forecast for that target.
pub struct ForecastCase {
    /// The sheet, which is accepted.
    pub case: SheetCase,
    /// The target's item number.
    pub target: u64,
    /// The forecast, worked out by hand.
    pub forecast: u64,
}

/// Items by name, start (or `-`), and edges.
pub(super) fn sheet(items: &[(&str, &str)], edges: &[&str]) -> Vec<u8> {
    let items = items.iter().map(|(name, start)| format!("{name} a {start} - 0\n"));
    let edges = edges.iter().map(|edge| format!("{edge}\n"));
    let (items, edges): (String, String) = (items.collect(), edges.collect());
    format!("name kind start loss rank\n{items}\nfrom to colour rec\n{edges}").into_bytes()
}

/// All of them.
pub fn forecasts() -> Vec<ForecastCase> {
    let mut cases = Vec::new();
    let mut put = |label: &str, sheet: Vec<u8>, target: u64, forecast: u64| {
        let case = SheetCase::accepted(format!("forecast: {label}"), sheet);
        cases.push(ForecastCase { case, target, forecast });
    };
    put("a starting item alone", sheet(&[("t", "1")], &[]), 0, 1);
    put("no starting item", sheet(&[("t", "-")], &["t t 0 0"]), 0, 1);
    let chain = [("p", "1"), ("q", "1"), ("t", "-")];
    put("through another starting item", sheet(&chain, &["p q 0 0", "q t 0 0"]), 2, 2);
    put("the target counts", sheet(&[("p", "1"), ("t", "1")], &["p t 0 0"]), 1, 2);
    let three = [("p", "1"), ("q", "1"), ("t", "-"), ("x", "1")];
    put("an item that leads nowhere", sheet(&three, &["p t 0 0", "q t 1 0"]), 2, 2);
    put("edges away from the target", sheet(&three, &["t p 0 0", "t q 0 0", "t x 0 0"]), 2, 1);
    put("behind the target", sheet(&three, &["p t 0 0", "q t 0 0", "t x 0 0"]), 2, 2);
    let two = [("p", "1"), ("q", "1"), ("t", "-")];
    put("recovery edges", sheet(&two, &["p t 0 1", "q t 1 1"]), 2, 2);
    put("colours 0 and 7", sheet(&two, &["p t 0 0", "q t 7 0"]), 2, 2);
    put("a colour that is never complete", incomplete(), 3, 3);
    put(
        "starts of zero",
        sheet(&[("p", "0"), ("q", "0"), ("t", "-")], &["p t 0 0", "q t 1 0"]),
        2,
        2,
    );
    put("late edges in a ring", ring(), 0, 6);
    put("7 of 14", at_least(7, 14).text(), at_least(7, 14).items.len() as u64 - 1, 3432);
    put("the last two of 64 items", far(), 0, 2);
    cases
}

/// p and q reach t by way of a colour that needs x too, which nothing opens; r reaches t by another.
fn incomplete() -> Vec<u8> {
    let items = [("p", "1"), ("q", "1"), ("r", "1"), ("t", "-"), ("x", "-")];
    sheet(&items, &["p t 0 0", "q t 0 0", "x t 0 0", "r t 1 0"])
}

/// Each item opens the one above it, and the first opens the last; all four are starting items.
fn ring() -> Vec<u8> {
    let items = [("a", "1"), ("b", "1"), ("c", "1"), ("d", "1")];
    sheet(&items, &["b a 0 0", "c b 0 0", "d c 0 0", "a d 0 0"])
}

/// 64 items, of which the last two are starting items and open the first together.
fn far() -> Vec<u8> {
    let names: Vec<String> = (0..64).map(|number| format!("i{number}")).collect();
    let start = |number: usize| if number >= 62 { "1" } else { "-" };
    let items: Vec<(&str, &str)> =
        names.iter().enumerate().map(|(number, name)| (name.as_str(), start(number))).collect();
    sheet(&items, &["i62 i0 0 0", "i63 i0 0 0"])
}
