//! Bags of values, and small sheets on which a wrong bag score shows (02, point 6), worked out by
//! hand.

use super::draft::Draft;
use super::forecasts::sheet;
use super::{Rng, SheetCase};

/// Two lists, and whether both are bags and the one is at most the other.
pub const COMPARED: &[(&[u64], &[u64], bool)] = &[
    // 003, example 10.
    (&[1, 1], &[1, 2], true),
    (&[1, 2], &[1, 1], false),
    (&[1, 2], &[1, 1, 2], true),
    (&[1, 1, 2], &[1, 2], false),
    (&[1, 2], &[1, 1, 1], false),
    (&[1, 1, 1], &[1, 2], false),
    // No value, one value, and 0, which is one.
    (&[], &[], true),
    (&[], &[0], true),
    (&[0], &[], false),
    (&[0], &[0], true),
    (&[0, 0], &[0], false),
    (&[3, 0], &[4], false),
    (&[3, 0], &[4, 0], true),
    (&[3, 0], &[0, 4], true),
    // Any order of writing: a first fit would take the 2 for the 1.
    (&[1, 2], &[2, 1], true),
    (&[2, 1], &[1, 2], true),
    (&[1, 2, 3], &[3, 2, 1], true),
    // More values there, not as many; and a sum says nothing.
    (&[1], &[1, 2], true),
    (&[1, 1], &[2], false),
    (&[2], &[1, 1], false),
    (&[1, 1], &[1], false),
    // Any 64-bit numbers.
    (&[u64::MAX], &[u64::MAX], true),
    (&[u64::MAX], &[u64::MAX - 1], false),
    (&[u64::MAX - 1, 0], &[0, u64::MAX], true),
    // 13, 14, 15 values.
    (&[5; 13], &[5; 14], true),
    (&[5; 14], &[5; 14], true),
    (&[5; 14], &[5; 13], false),
    (&[5; 15], &[5; 15], false),
    (&[], &[5; 15], false),
    (&[5; 15], &[], false),
    (&[0], &[0; 15], false),
    (&[], &[0; 14], true),
];

/// A sheet, a target of it, and its bag score.
pub struct BagCase {
    /// The sheet, which is accepted.
    pub case: SheetCase,
    /// The target's item number.
    pub target: u64,
    /// The bags in order, the highest value first.
    pub bags: Vec<Vec<u64>>,
}

/// Starting items, and a last item that each of eight colours opens by two to six of them.
pub fn several_ways(rng: &mut Rng) -> Draft {
    let target = 6 + rng.below(9);
    let mut items: Vec<usize> = (0..target).collect();
    let mut draft = Draft::of_items(target + 1);
    draft.set_starting(&items, || 1);
    for colour in 0..8 {
        rng.shuffle(&mut items);
        for &item in &items[..2 + rng.below(5)] {
            draft.add_edge(item, target, colour, rng.chance(1, 8));
        }
    }
    draft
}

/// All of them.
pub fn bags() -> Vec<BagCase> {
    let mut cases = Vec::new();
    let mut put = |label: &str, sheet: Vec<u8>, target: u64, bags: &[&[u64]]| {
        let case = SheetCase::accepted(format!("bags: {label}"), sheet);
        let bags = bags.iter().map(|bag| bag.to_vec()).collect();
        cases.push(BagCase { case, target, bags });
    };
    // 003, example 13: two passwords of 1, or one device of 2.
    let figure6 = [("pwd_a", "1"), ("pwd_b", "1"), ("device", "2"), ("acc_a", "-"), ("acc_b", "-")];
    let both = ["pwd_a acc_a 0 0", "pwd_b acc_a 0 0", "device acc_b 0 0"];
    put("two passwords", sheet(&figure6, &both), 3, &[&[1, 1]]);
    put("one device", sheet(&figure6, &both), 4, &[&[2]]);
    let either = ["pwd_a acc_a 0 0", "pwd_b acc_a 0 0", "device acc_a 1 0"];
    put("either", sheet(&figure6, &either), 3, &[&[2], &[1, 1]]);
    // A 0 is a value: {3, 0} is not at most {4}, nor {4} at most {3, 0}.
    let zero = [("f", "4"), ("g", "3"), ("z", "0"), ("t", "-")];
    put("a zero", sheet(&zero, &["f t 0 0", "g t 1 0", "z t 1 0"]), 3, &[&[4], &[3, 0]]);
    put("nothing but a zero", sheet(&[("z", "0"), ("t", "-")], &["z t 0 0"]), 1, &[&[0]]);
    put("never", sheet(&[("z", "0"), ("t", "-")], &[]), 1, &[]);
    // One bag of two sets counts once.
    let pairs = [("a", "2"), ("b", "1"), ("c", "1"), ("d", "2"), ("e", "3"), ("t", "-")];
    let twice = ["a t 0 0", "b t 0 0", "c t 1 0", "d t 1 0", "e t 2 0"];
    put("one bag of two sets", sheet(&pairs, &twice), 5, &[&[3], &[2, 1]]);
    // The first set that has a bag tells its place, not the last; and no order of the values does.
    let places = ["a t 0 0", "b t 0 0", "c t 1 0", "d t 1 0", "e t 2 0", "f t 2 0"];
    let outer =
        [("a", "5"), ("b", "1"), ("c", "3"), ("d", "3"), ("e", "5"), ("f", "1"), ("t", "-")];
    put("the first of two sets", sheet(&outer, &places), 6, &[&[5, 1], &[3, 3]]);
    let inner =
        [("a", "3"), ("b", "3"), ("c", "5"), ("d", "1"), ("e", "3"), ("f", "3"), ("t", "-")];
    put("the lower values first", sheet(&inner, &places), 6, &[&[3, 3], &[5, 1]]);
    // A set behind, with as many items, has the lower bag; one with more items has not.
    let four = [("a", "5"), ("b", "5"), ("c", "1"), ("d", "1"), ("t", "-")];
    let behind = ["a t 0 0", "b t 0 0", "c t 1 0", "d t 1 0"];
    put("a lower one behind", sheet(&four, &behind), 4, &[&[1, 1]]);
    let fewer = ["a t 0 0", "c t 1 0", "d t 1 0"];
    put("fewer and higher", sheet(&four, &fewer), 4, &[&[5], &[1, 1]]);
    // A bag before, with fewer values, is at most one with more.
    let one = [("a", "1"), ("b", "2"), ("c", "2"), ("t", "-")];
    let either = ["a t 0 0", "b t 1 0", "c t 1 0"];
    put("fewer and lower", sheet(&one, &either), 3, &[&[1]]);
    // The middle one goes when the last comes, and the first stays.
    let three = [("a", "9"), ("b", "7"), ("c", "7"), ("d", "2"), ("e", "3"), ("t", "-")];
    let last = ["a t 0 0", "b t 1 0", "c t 1 0", "d t 2 0", "e t 2 0"];
    put("the middle one goes", sheet(&three, &last), 5, &[&[9], &[3, 2]]);
    // Start values, and not loss values; recovery edges open as others do.
    let losable = "name kind start loss rank\na a 2 7 0\nb a 3 6 0\nt a - 5 0\n\n";
    let marked = format!("{losable}from to colour rec\na t 0 1\nb t 0 0\n").into_bytes();
    put("start and loss", marked, 2, &[&[3, 2]]);
    // The last of 64 items starts.
    let names: Vec<String> = (0..64).map(|item| format!("i{item}")).collect();
    let start = |item| if item == 63 { "6" } else { "-" };
    let last: Vec<(&str, &str)> =
        names.iter().enumerate().map(|(item, name)| (name.as_str(), start(item))).collect();
    put("the last of 64 items", sheet(&last, &["i63 i0 0 0"]), 0, &[&[6]]);
    // The largest values.
    let large = [("a", "4000000000"), ("b", "4000000000"), ("t", "-")];
    let edges = ["a t 0 0", "b t 0 0"];
    put("large", sheet(&large, &edges), 2, &[&[4_000_000_000, 4_000_000_000]]);
    put("a starting item itself", sheet(&large, &edges), 0, &[&[4_000_000_000]]);
    // 14 values in one bag.
    let names: Vec<String> = (0..14).map(|i| format!("i{i}")).collect();
    let values: Vec<String> = (0..14).map(|i| (i * 7 % 14).to_string()).collect();
    let mut items: Vec<(&str, &str)> =
        names.iter().zip(&values).map(|(name, value)| (name.as_str(), value.as_str())).collect();
    items.push(("t", "-"));
    let edges: Vec<String> = names.iter().map(|name| format!("{name} t 3 0")).collect();
    let edges: Vec<&str> = edges.iter().map(String::as_str).collect();
    let mut all: Vec<u64> = (0..14).map(|i| i * 7 % 14).collect();
    all.sort_unstable_by(|a, b| b.cmp(a));
    put("14 values", sheet(&items, &edges), 14, &[&all]);
    cases
}
