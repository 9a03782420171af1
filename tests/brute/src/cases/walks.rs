//! Showing an opening list one set at a time (02, point 9): small sheets on which a wrong next set
//! shows.

use super::SheetCase;

/// A sheet, a target of it, and what is shown after some sets: a set, or "no more".
pub struct NextCase {
    /// The sheet, which is accepted.
    pub case: SheetCase,
    /// The target's item number.
    pub target: u64,
    /// Last sets, each with the answer worked out by hand.
    pub shown: Vec<(u64, Result<Option<u64>, u8>)>,
}

/// Items by name and start (or `-`), and edges.
fn sheet(items: &[(&str, &str)], edges: &[&str]) -> Vec<u8> {
    let items = items.iter().map(|(name, start)| format!("{name} a {start} - 0\n"));
    let edges = edges.iter().map(|edge| format!("{edge}\n"));
    let (items, edges): (String, String) = (items.collect(), edges.collect());
    format!("name kind start loss rank\n{items}\nfrom to colour rec\n{edges}").into_bytes()
}

/// A case: its label, sheet, target and what is shown.
fn case(label: &str, sheet: Vec<u8>, target: u64, shown: &[(u64, Answer)]) -> NextCase {
    let case = SheetCase::accepted(format!("next set: {label}"), sheet);
    NextCase { case, target, shown: shown.to_vec() }
}

/// All of them.
pub fn next_cases() -> Vec<NextCase> {
    let own = [(0, Ok(Some(1))), (1, Ok(None))];
    vec![
        two_sizes(),
        one_size(),
        case("no set opens it", sheet(&THREE, &[]), 3, &[(0, Ok(None)), (7, Ok(None))]),
        case("a starting item opens itself", sheet(&[("t", "0")], &["t t 0 0"]), 0, &own),
        no_lockout_set(),
        past_the_first_word(),
        case("items 62 and 63", far(), 0, &far_shown()),
    ]
}

/// Three starting items, and the target 3.
const THREE: [(&str, &str); 4] = [("a", "1"), ("b", "1"), ("c", "1"), ("t", "-")];

/// The list is {c}, {a, b}: by set numbers alone {a, b} would come first.
fn two_sizes() -> NextCase {
    let both = sheet(&THREE, &["a t 0 0", "b t 0 0", "c t 1 0"]);
    let shown = [
        (0, Ok(Some(4))),
        (4, Ok(Some(3))),
        (3, Ok(None)),
        // Sets that are not in the list: before, between and behind those that are.
        (1, Ok(Some(4))),
        (2, Ok(Some(4))),
        (5, Ok(None)),
        (6, Ok(None)),
        (7, Ok(None)),
        // Items that are no starting ones: the target, one beyond the count, the last place.
        (8, Err(21)),
        (4 | 8, Err(21)),
        (16, Err(21)),
        (1 << 63, Err(21)),
        (u64::MAX, Err(21)),
    ];
    case("two sizes", both, 3, &shown)
}

/// The list is {a}, {b}, {c}.
fn one_size() -> NextCase {
    let each = sheet(&THREE, &["a t 0 0", "b t 1 0", "c t 2 0"]);
    let shown =
        [(0, Ok(Some(1))), (1, Ok(Some(2))), (2, Ok(Some(4))), (4, Ok(None)), (3, Ok(None))];
    case("one size", each, 3, &shown)
}

/// The lockout list is {a, b, c}, 7: after {b} it would be shown.
fn no_lockout_set() -> NextCase {
    let losses = "name kind start loss rank\na c 1 1 0\nb c 1 1 0\nc c - 1 0\nt a - - 1\n\n\
        from to colour rec\na t 0 0\nb t 1 0\nc t 2 0\n";
    let shown = [(0, Ok(Some(1))), (1, Ok(Some(2))), (2, Ok(None)), (4, Err(21))];
    case("no lockout set", losses.as_bytes().to_vec(), 3, &shown)
}

/// Seven starting items, and the list is {f}, {g}. A word holds 64 sets: {g}, 64, is in the second.
fn past_the_first_word() -> NextCase {
    let mut items = ["a", "b", "c", "d", "e", "f", "g"].map(|name| (name, "1")).to_vec();
    items.push(("t", "-"));
    let shown = [
        (0, Ok(Some(32))),
        (32, Ok(Some(64))),
        (64, Ok(None)),
        (16, Ok(Some(32))),
        (3, Ok(None)),
        (128, Err(21)),
    ];
    case("past the first word", sheet(&items, &["f t 0 0", "g t 1 0"]), 7, &shown)
}

type Answer = Result<Option<u64>, u8>;

/// 64 items, of which the last two are starting items; each opens the first.
fn far() -> Vec<u8> {
    let names: Vec<String> = (0..64).map(|number| format!("i{number}")).collect();
    let start = |number: usize| if number >= 62 { "1" } else { "-" };
    let items: Vec<(&str, &str)> =
        names.iter().enumerate().map(|(number, name)| (name.as_str(), start(number))).collect();
    sheet(&items, &["i62 i0 0 0", "i63 i0 1 0"])
}

fn far_shown() -> [(u64, Answer); 5] {
    let (low, high) = (1 << 62, 1 << 63);
    let (first, second) = (Ok(Some(low)), Ok(Some(high)));
    [(0, first), (low, second), (high, Ok(None)), (low | high, Ok(None)), (1, Err(21))]
}
