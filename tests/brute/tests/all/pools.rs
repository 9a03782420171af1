//! Pooled sheets: the cases by name, and the example of two labs.

use brute::cases::pools::pools;
use brute::pool::{pool, pooled};

/// The number that each case was made for is the one that the sentences of 02 give.
#[test]
fn the_cases_say_their_numbers() {
    for case in pools() {
        let number = pooled(&case.first, &case.second).map_or_else(|no| no.number, |_| 0);
        assert_eq!(Some(number), case.number, "{}", case.label);
    }
}

/// Colours 0 and 3 into the shared item become 1 and 2; the other item keeps its colour 5.
#[test]
fn two_labs() {
    let first = b"name kind start loss rank\nbadge c 2 1 0\nstore a - - 1\n\nfrom to colour rec\nbadge store 0 0\n";
    let second = b"name kind start loss rank\nstore a - - 1\npin c 1 0 0\n\nfrom to colour rec\npin store 3 0\nstore store 0 1\nstore pin 5 0\n";
    let both = "name kind start loss rank\nbadge c 2 1 0\nstore a - - 1\npin c 1 0 0\n\nfrom to colour rec\nbadge store 0 0\npin store 2 0\nstore store 1 1\nstore pin 5 0\n";
    assert_eq!(pooled(first, second), Ok(both.as_bytes().to_vec()));
}

/// The longest pooled sheet is the longest sheet.
#[test]
fn the_longest() {
    let case = pools().into_iter().find(|case| case.label == "the longest sheet");
    let case = case.expect("a case has that label");
    assert_eq!(pooled(&case.first, &case.second).map(|text| text.len()), Ok(11_626));
}

/// Every refusal leaves the buffer as it was, and an answer the bytes behind it.
#[test]
fn the_buffer() {
    let sheet = b"name kind start loss rank\na c - - 0\n\nfrom to colour rec\n";
    let mut out = vec![7; sheet.len() + 1];
    assert_eq!(pool(sheet, sheet, &mut out[..sheet.len() - 1]).number, 24);
    assert!(out.iter().all(|byte| *byte == 7));
    let answer = pool(sheet, sheet, &mut out);
    assert_eq!(answer.numbers(), [0, 0, 0, sheet.len() as u64]);
    assert_eq!((&out[..sheet.len()], out[sheet.len()]), (&sheet[..], 7));
}
